//! Trees and bodies for people to read.

use std::fmt::Write;

use crate::ast::GROUP;
use crate::judge::Refusal;
use crate::tables::Tables;
use crate::tree::*;

pub const UNARY_SIGNS: [&str; 3] = ["-", "~", "not"];
pub const BINARY_SIGNS: [&str; 18] =
    ["or", "and", "|", "^", "&", "==", "!=", "<", "<=", ">", ">=", "<<", ">>", "+", "-", "*", "/", "%"];
const LABEL_KINDS: [&str; 8] =
    ["?", "loop start", "loop end", "loop check", "otherwise", "condition end", "logic rhs", "logic end"];
const KINDS: [&str; 26] = [
    "?",
    "type",
    "Int",
    "Float",
    "Str",
    "Bool",
    "Name",
    "Null",
    "SizeOf",
    "Unary",
    "Binary",
    "Call",
    "list",
    "value",
    "type argument",
    "Declare",
    "Init",
    "Return",
    "call statement",
    "If",
    "While",
    "For",
    "Break",
    "Continue",
    "variable",
    "function",
];

/// Bytes as text where they are UTF-8, with escapes elsewhere.
pub fn readable(bytes: &[u8]) -> String {
    match std::str::from_utf8(bytes) {
        Ok(text) => format!("{text:?}"),
        Err(_) => format!("\"{}\"", bytes.escape_ascii()),
    }
}

fn text_word(tree: &Tree, offset: u32, length: u32) -> String {
    let slice = tree.text.get(offset as usize..).and_then(|rest| rest.get(..length as usize));
    slice.map_or_else(|| format!("text {offset}+{length} (outside)"), readable)
}

fn type_detail(detail: u8) -> String {
    let names = ["?", "Int", "Float", "Bool", "Char", "Byte", "Address", "Array", "Custom", "Null"];
    let name = names.get(usize::from(detail & 15)).unwrap_or(&"?");
    let short = if detail & 16 != 0 { "short " } else { "" };
    let unsigned = if detail & 32 != 0 { "unsigned " } else { "" };
    format!("{short}{unsigned}{name}")
}

fn detail(record: &Record) -> String {
    let at = usize::from(record.detail);
    match record.kind {
        TYPE => type_detail(record.detail),
        UNARY => UNARY_SIGNS.get(at).unwrap_or(&"?").to_string(),
        BINARY => BINARY_SIGNS.get(at).unwrap_or(&"?").to_string(),
        _ if record.detail == 0 => String::new(),
        _ => format!("detail {}", record.detail),
    }
}

/// One record on one line, faulty ones too.
pub fn record_line(tree: &Tree, at: usize) -> String {
    let record = &tree.records[at];
    let kind = KINDS.get(usize::from(record.kind)).unwrap_or(&"?");
    let mut line = format!("#{at} {kind} {}", detail(record));
    match record.kind {
        INT => _ = write!(line, " {}", record.value() as i64),
        FLOAT => _ = write!(line, " {:?} ({:016X})", f64::from_bits(record.value()), record.value()),
        _ => {}
    }
    let Some(roles) = roles(record) else {
        return format!("{line} kind {} words {:X?}", record.kind, record.words);
    };
    for (i, role) in roles.into_iter().enumerate() {
        let (word, letter) = (record.words[i], char::from(b'A' + i as u8));
        match role {
            Role::Text => _ = write!(line, " {}", text_word(tree, word, record.words[i + 1])),
            Role::Unused if word != 0 => _ = write!(line, " {letter}!={word:X}"),
            _ if !role.refers() => {}
            _ if word == NONE => _ = write!(line, " {letter}=none"),
            _ => _ = write!(line, " {letter}=#{word}"),
        }
    }
    if record.kind == TYPE && record.detail == 7 {
        _ = write!(line, " count {}", record.count());
    }
    if record.pad != [0; 2] {
        _ = write!(line, " bytes 2 and 3: {:?}", record.pad);
    }
    format!("{line} @{}..{}", record.start, record.end)
}

pub fn tree_text(tree: &Tree) -> String {
    (0..tree.records.len()).map(|at| record_line(tree, at) + "\n").collect()
}

fn word(table: &[u8], at: usize) -> u32 {
    u32::from_le_bytes(table[at..at + 4].try_into().unwrap())
}

fn long(table: &[u8], at: usize) -> u64 {
    u64::from_le_bytes(table[at..at + 8].try_into().unwrap())
}

fn operand(tag: u8, value: u64) -> String {
    match tag {
        1 => format!("v{value}"),
        2 => format!("{}", value as i64),
        3 => format!("{}s", value as i64),
        4 => format!("{}u", value as i64),
        5 => format!("{}us", value as i64),
        6 => format!("f{value}"),
        7 => ["false", "true"][usize::from(value != 0)].to_string(),
        8 => format!("str{value}"),
        9 => "null".to_string(),
        _ => format!("?{tag}:{value}"),
    }
}

/// How a printer names a record: its number, or for a laid-out program its group and number there.
pub type Namer<'n> = &'n dyn Fn(u32) -> String;

/// The name of a record by its span, as `Layout` gives spans: s0 is the first statement met.
pub fn by_span(tree: &Tree, record: u32) -> String {
    let span = tree.at(record).start;
    let group = ["#", "s", "e", "g", "p"][(span / GROUP) as usize];
    format!("{group}{}", span % GROUP)
}

/// One instruction of 32 bytes.
pub fn instruction(entry: &[u8], name: Namer) -> String {
    let (kind, op) = (entry[0], usize::from(entry[1]));
    let target = word(entry, 4);
    let first = operand(entry[2], long(entry, 8));
    let record = word(entry, 24);
    match kind {
        1 => format!("Copy v{target} {first}"),
        2 => format!("Unary v{target} {} {first}", UNARY_SIGNS[op]),
        3 => format!("Binary v{target} {first} {} {}", BINARY_SIGNS[op], operand(entry[3], long(entry, 16))),
        4 => format!("Cast v{target} {first}"),
        5 => format!("Zero v{target}"),
        6 => format!("Arg {first}"),
        7 if target == NONE => format!("Call {}", name(record)),
        7 => format!("Call v{target} {}", name(record)),
        8 => format!("Label L{target}"),
        9 => format!("Jump L{target}"),
        10 => format!("JumpIfNot {first} L{target}"),
        11 => format!("Return {first}"),
        12 => format!("Comment {}", name(record)),
        _ => format!("kind {kind}"),
    }
}

/// All six tables, function by function.
pub fn tables_text(tables: &Tables, name: Namer) -> String {
    let mut text = String::new();
    for entry in tables.functions.chunks_exact(32) {
        let words: Vec<usize> = (0..8).map(|i| word(entry, 4 * i) as usize).collect();
        let body = if words[1] == 1 { "" } else { ", no body" };
        _ = writeln!(text, "function {}{body}", name(words[0] as u32));
        for (i, v) in tables.variables[4 * words[4]..].chunks_exact(4).take(words[5]).enumerate() {
            _ = writeln!(text, "  v{i} type #{}", word(v, 0));
        }
        for (i, l) in tables.labels[8 * words[6]..].chunks_exact(8).take(words[7]).enumerate() {
            let kind = LABEL_KINDS[word(l, 0) as usize];
            _ = writeln!(text, "  L{i} {kind} {}", name(word(l, 4)));
        }
        for (i, entry) in tables.instructions[32 * words[2]..].chunks_exact(32).take(words[3]).enumerate() {
            _ = writeln!(text, "  {i:4} {}", instruction(entry, name));
        }
    }
    for (i, entry) in tables.strings.chunks_exact(8).enumerate() {
        _ = writeln!(text, "str{i} {}+{}", word(entry, 0), word(entry, 4));
    }
    for (i, entry) in tables.floats.chunks_exact(16).enumerate() {
        let (bits, short) = (long(entry, 0), word(entry, 8));
        let mark = if short == 1 { " short" } else { "" };
        _ = writeln!(text, "f{i} {:?} ({bits:016X}){mark}", f64::from_bits(bits));
    }
    text
}

/// A refusal in words.
pub fn refusal_text(tree: &Tree, refusal: &Refusal) -> String {
    let place = match refusal.place {
        NONE => "no place".to_string(),
        at => record_line(tree, at as usize),
    };
    format!("refused: {} at {place}\n", refusal.number)
}
