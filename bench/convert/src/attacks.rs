//! Trees within document 01's limits that try to stall the call. Their texts are windows of `a...a B0 a...a`, all of one length, one byte
//! further each: any two are unequal, and share a beginning that is nearly the whole text.

use oracle::Case;
use oracle::ast::Layout;
use oracle::generate::whole;
use oracle::tree::*;
use oracle::write::*;

/// What a tree of one attack varies: how many records it has room for, how much of it (in eighths) declares what the rest uses, and how deep the rest is nested.
#[derive(Clone, Copy, Debug)]
pub struct Knobs {
    pub records: usize,
    pub text: usize,
    pub share: usize,
    pub depth: usize,
}

pub struct Attack {
    pub name: &'static str,
    pub what: &'static str,
    /// Whether the length of the text matters.
    pub texts: bool,
    pub shares: &'static [usize],
    pub depths: &'static [usize],
    tree: fn(Knobs) -> Hostile,
}

impl Attack {
    pub fn case(&self, knobs: Knobs) -> Case {
        whole((self.tree)(knobs).layout)
    }
}

const ALL: &[usize] = &[8];
const SOME: &[usize] = &[1, 2, 3, 4, 6];
const HIGH: &[usize] = &[1, 20, 48];

pub const ATTACKS: [Attack; 35] = [
    Attack {
        name: "customs",
        what: "Customs with overlapping names",
        texts: true,
        shares: ALL,
        depths: &[1],
        tree: customs,
    },
    Attack {
        name: "arrays",
        what: "as many array types as there is room for",
        texts: false,
        shares: ALL,
        depths: &[1],
        tree: arrays,
    },
    Attack {
        name: "functions",
        what: "functions with overlapping names and mangled names",
        texts: true,
        shares: ALL,
        depths: &[1],
        tree: functions,
    },
    Attack {
        name: "collisions",
        what: "functions whose names and mangled names share their digest and a long beginning",
        texts: true,
        shares: ALL,
        depths: &[1],
        tree: collisions,
    },
    Attack {
        name: "short-collisions",
        what: "as many such names as the text has room for, of one digest and 16 bytes or little more",
        texts: true,
        shares: ALL,
        depths: &[1],
        tree: short_collisions,
    },
    Attack {
        name: "spread-collisions",
        what: "such names, of which 255 part from each other at each byte, so that each is compared with all before it",
        texts: true,
        shares: ALL,
        depths: &[1],
        tree: spread_collisions,
    },
    Attack {
        name: "string-collisions",
        what: "strings that share their digest and a long beginning",
        texts: true,
        shares: ALL,
        depths: &[28],
        tree: string_collisions,
    },
    Attack {
        name: "custom-collisions",
        what: "Customs whose names do",
        texts: true,
        shares: ALL,
        depths: &[1],
        tree: custom_collisions,
    },
    Attack {
        name: "custom-beginnings",
        what: "as many Customs of one digest as there is room for, each name the beginning of the next, so that each is compared with all before it",
        texts: true,
        shares: ALL,
        depths: &[1],
        tree: custom_beginnings,
    },
    Attack {
        name: "custom-buckets",
        what: "Customs in one bucket, of distinct digests but two",
        texts: true,
        shares: ALL,
        depths: &[1],
        tree: custom_buckets,
    },
    Attack {
        name: "custom-suspects",
        what: "Customs with overlapping names, and two short ones of one digest",
        texts: true,
        shares: ALL,
        depths: &[1],
        tree: custom_suspects,
    },
    Attack {
        name: "array-collisions",
        what: "array types whose words share their digest",
        texts: false,
        shares: ALL,
        depths: &[1],
        tree: array_collisions,
    },
    Attack {
        name: "array-buckets",
        what: "array types of distinct digests in one bucket",
        texts: false,
        shares: ALL,
        depths: &[1],
        tree: array_buckets,
    },
    Attack {
        name: "calls",
        what: "functions of such names, and calls without arguments, typed again at each level above them",
        texts: true,
        shares: SOME,
        depths: HIGH,
        tree: calls,
    },
    Attack {
        name: "short-calls",
        what: "the same with short names",
        texts: false,
        shares: SOME,
        depths: HIGH,
        tree: short_calls,
    },
    Attack {
        name: "joined-keys",
        what: "the same with a type argument, so that verb, `$` and key text are compared",
        texts: true,
        shares: SOME,
        depths: HIGH,
        tree: joined_keys,
    },
    Attack {
        name: "prefixes",
        what: "functions whose keys are nearly the verb with `$...`, and calls without arguments, typed again at each level above them",
        texts: true,
        shares: SOME,
        depths: HIGH,
        tree: prefixes,
    },
    Attack {
        name: "nested-calls",
        what: "the same functions, and calls in calls",
        texts: true,
        shares: SOME,
        depths: &[8, 29],
        tree: nested_calls,
    },
    Attack {
        name: "type-arguments",
        what: "a call with many type arguments, typed again at each level above it, and functions of all those lengths",
        texts: true,
        shares: SOME,
        depths: HIGH,
        tree: type_arguments,
    },
    Attack {
        name: "overloads",
        what: "functions of one name, and a call whose argument is one constant, folded for each of them",
        texts: false,
        shares: SOME,
        depths: HIGH,
        tree: overloads,
    },
    Attack {
        name: "one-verb",
        what: "functions of one name, and calls of it, each with a constant that only the last one takes",
        texts: false,
        shares: SOME,
        depths: &[1],
        tree: one_verb,
    },
    Attack {
        name: "verbs",
        what: "functions of one parameter, each of a name of its own, and calls of all of them in turn",
        texts: false,
        shares: SOME,
        depths: &[1],
        tree: verbs,
    },
    Attack {
        name: "parameters",
        what: "one function with overlapping names of parameters",
        texts: true,
        shares: ALL,
        depths: &[1],
        tree: parameters,
    },
    Attack {
        name: "declares",
        what: "Declares of overlapping names",
        texts: true,
        shares: ALL,
        depths: &[1],
        tree: declares,
    },
    Attack {
        name: "first-name",
        what: "Declares of overlapping names, and the first of them, typed again at each level above it",
        texts: true,
        shares: SOME,
        depths: HIGH,
        tree: first_name,
    },
    Attack {
        name: "last-name",
        what: "the same with the last",
        texts: true,
        shares: SOME,
        depths: HIGH,
        tree: last_name,
    },
    Attack {
        name: "all-names",
        what: "Declares of overlapping names, and assignments of all of them",
        texts: true,
        shares: SOME,
        depths: &[1],
        tree: all_names,
    },
    Attack {
        name: "strings",
        what: "distinct overlapping strings",
        texts: true,
        shares: ALL,
        depths: &[28],
        tree: strings,
    },
    Attack {
        name: "labels",
        what: "one body with as many labels as there is room for",
        texts: false,
        shares: ALL,
        depths: &[1, 8, 50],
        tree: labels,
    },
    Attack {
        name: "ifs",
        what: "one body of empty Ifs with otherwise",
        texts: false,
        shares: ALL,
        depths: &[1],
        tree: ifs,
    },
    Attack {
        name: "floats",
        what: "distinct floats, each fitted to short",
        texts: false,
        shares: ALL,
        depths: &[1, 8, 50],
        tree: floats,
    },
    Attack {
        name: "ands",
        what: "Ands over names, typed again at each level above them",
        texts: false,
        shares: ALL,
        depths: HIGH,
        tree: ands,
    },
    Attack {
        name: "comparisons",
        what: "the same with equality of truths",
        texts: false,
        shares: ALL,
        depths: HIGH,
        tree: comparisons,
    },
    Attack {
        name: "folds",
        what: "a constant whose type changes at each level, folded again at each",
        texts: false,
        shares: ALL,
        depths: HIGH,
        tree: folds,
    },
    Attack {
        name: "float-folds",
        what: "the same with floats",
        texts: false,
        shares: ALL,
        depths: HIGH,
        tree: float_folds,
    },
];

impl Attack {
    /// A nesting for trees of so many records: leaves that are joined in pairs stand one level deeper in a tree twice as large.
    pub fn depth(&self, depth: usize, records: usize) -> usize {
        if depth > 40 { depth - (records / 2048).max(1).ilog2() as usize - 1 } else { depth }
    }
}

pub fn by_name(name: &str) -> Option<&'static Attack> {
    ATTACKS.iter().find(|attack| attack.name == name)
}

/// Offset and length in the text.
type Text = (u32, u32);

const LONG_TYPE: u32 = 0;
const ULONG_TYPE: u32 = 2;
const SINGLE_TYPE: u32 = 5;
const BOOL_TYPE: u32 = 6;

/// The byte that makes windows differ; not ASCII, as names of functions must not be.
const MARK: u8 = 0xB0;

/// A tree written record by record.
struct Hostile {
    layout: Layout,
    most: usize,
}

/// Windows of one length, by number.
#[derive(Clone, Copy)]
struct Windows {
    base: u32,
    /// Bytes before the mark in the first window.
    before: u32,
}

impl Windows {
    /// Window `at`, with so many bytes behind the first window's mark.
    fn wide(self, at: usize, behind: u32) -> Text {
        (self.base + at as u32, self.before + 1 + behind)
    }

    fn at(self, at: usize) -> Text {
        self.wide(at, 0)
    }
}

impl Hostile {
    fn new(knobs: Knobs) -> Self {
        Self { layout: Layout::program(&[]), most: knobs.records }
    }

    /// The records that may still be written.
    fn room(&self) -> usize {
        self.most - self.layout.records.len()
    }

    /// Text up to `bytes` in all, for so many windows.
    fn windows(&mut self, bytes: usize, count: usize) -> Windows {
        let text = &mut self.layout.text;
        let (base, behind) = (text.len(), count + 8);
        let before = bytes.saturating_sub(base + behind + 1).max(count + 8);
        text.resize(base + before, b'a');
        text.push(MARK);
        text.resize(base + before + 1 + behind, b'a');
        Windows { base: base as u32, before: before as u32 }
    }

    /// Text up to `bytes` in all, for so many windows of `$...$...` with a mark, four bytes further each; the first of them.
    fn marked(&mut self, bytes: usize, count: usize) -> Text {
        let text = &mut self.layout.text;
        let base = text.len();
        let long = (bytes.saturating_sub(base + 4 * count) / 4 * 4).max(4 * count + 16);
        text.extend(b"$...".iter().cycle().take(long + 4 * count));
        text[base + long - 6] = MARK;
        (base as u32, long as u32)
    }

    /// A short text of its own.
    fn short(&mut self, text: &str) -> Text {
        self.layout.text(text.as_bytes())
    }

    fn push(&mut self, kind: u8, detail: u8, words: &[u32]) -> u32 {
        self.layout.push(kind, detail, words, 0)
    }

    fn list(&mut self, items: &[u32]) -> u32 {
        items.iter().rev().fold(NONE, |rest, item| self.push(LIST, 0, &[*item, rest]))
    }

    fn text_of(&mut self, kind: u8, text: Text) -> u32 {
        self.push(kind, 0, &[text.0, text.1])
    }

    fn int(&mut self, value: i64, detail: u8) -> u32 {
        self.push(INT, detail, &[value as u32, (value >> 32) as u32])
    }

    fn float(&mut self, value: f64, detail: u8) -> u32 {
        let bits = value.to_bits();
        self.push(FLOAT, detail, &[bits as u32, (bits >> 32) as u32])
    }

    fn binary(&mut self, op: u8, left: u32, right: u32) -> u32 {
        self.push(BINARY, op, &[left, right])
    }

    fn call(&mut self, verb: Text, args: &[u32]) -> u32 {
        let list = self.list(args);
        self.push(CALL, 0, &[verb.0, verb.1, list])
    }

    fn value(&mut self, expr: u32) -> u32 {
        self.push(VALUE, 0, &[expr])
    }

    fn declare(&mut self, name: Text, ty: u32) -> u32 {
        self.push(DECLARE, 0, &[name.0, name.1, ty])
    }

    fn init(&mut self, name: Text, value: u32) -> u32 {
        self.push(INIT, 0, &[name.0, name.1, value])
    }

    /// A function; without a body where that is none.
    fn function(
        &mut self,
        name: Text,
        mangled: Text,
        params: &[(Text, u32)],
        ret: u32,
        body: Option<&[u32]>,
    ) {
        let (a, b) = (self.text_of(NAME, name), self.text_of(NAME, mangled));
        let items: Vec<u32> =
            params.iter().map(|(name, ty)| self.push(VARIABLE, 0, &[name.0, name.1, *ty])).collect();
        let c = self.list(&items);
        let e = body.map_or(NONE, |statements| self.list(statements));
        self.push(FUNCTION, if body.is_some() { 4 } else { 0 }, &[a, b, c, ret, e]);
    }

    /// A function of these statements alone.
    fn body(mut self, statements: &[u32]) -> Self {
        let name = self.short("함");
        self.function(name, name, &[], NONE, Some(statements));
        self
    }

    /// An array type with this key text.
    fn array_type(&mut self, key: Text) -> u32 {
        self.layout.records.push(Record::new(TYPE, 7, [LONG_TYPE, 1, 0, key.0, key.1]));
        self.layout.records.len() as u32 - 1
    }

    /// An array type of so many.
    fn array(&mut self, count: u64) {
        self.layout.records.push(Record::new(TYPE, 7, [LONG_TYPE, count as u32, (count >> 32) as u32, 0, 0]));
    }

    fn custom(&mut self, name: Text) {
        self.layout.records.push(Record::new(TYPE, 8, [name.0, name.1, 0, 0, 0]));
    }

    /// So many leaves, joined in pairs by an operator.
    fn balanced(&mut self, op: u8, leaves: usize, mut leaf: impl FnMut(&mut Self) -> u32) -> u32 {
        let mut row: Vec<u32> = (0..leaves).map(|_| leaf(self)).collect();
        while row.len() > 1 {
            row = row
                .chunks(2)
                .map(|pair| pair.iter().copied().reduce(|l, r| self.binary(op, l, r)).unwrap_or(0))
                .collect();
        }
        row[0]
    }

    /// As many leaves of so many records as there is room for, joined in pairs, below a tower of `depth` levels: at each of these all that
    /// stands below is typed again.
    fn tower(self, (depth, op): (usize, u8), each: usize, leaf: impl FnMut(&mut Self) -> u32) -> Self {
        self.tower_after(Vec::new(), (depth, op), each, leaf)
    }

    /// `tower`, as the value of a new variable, with statements before it.
    fn tower_after(
        mut self,
        mut before: Vec<u32>,
        (depth, op): (usize, u8),
        each: usize,
        mut leaf: impl FnMut(&mut Self) -> u32,
    ) -> Self {
        let room = self.room() - before.len() - 10;
        let leaves = room.saturating_sub(depth * (each + 1)) / (each + 1);
        let mut nest = self.balanced(op, leaves.max(1), &mut leaf);
        for _ in 0..depth {
            let right = leaf(&mut self);
            nest = self.binary(op, nest, right);
        }
        let target = self.short("변");
        let statement = self.init(target, nest);
        before.push(statement);
        self.body(&before)
    }

    /// A function with this value as a variable's alone.
    fn only(mut self, value: u32) -> Self {
        let target = self.short("변");
        let statement = self.init(target, value);
        self.body(&[statement])
    }

    /// Statements, each with its list cell, until there is no room for one of so many records and for the function around.
    fn fill(&mut self, each: usize, mut statement: impl FnMut(&mut Self, usize) -> u32) -> Vec<u32> {
        let mut made = Vec::new();
        while self.room() >= made.len() + each + 1 + 3 {
            let next = statement(self, made.len());
            made.push(next);
        }
        made
    }
}

fn customs(knobs: Knobs) -> Hostile {
    let mut tree = Hostile::new(knobs);
    // Each window needs its mark.
    let count = tree.room().min(knobs.text / 2 - tree.layout.text.len());
    let windows = tree.windows(knobs.text, count);
    (0..count).for_each(|at| tree.custom(windows.at(at)));
    tree
}

fn arrays(knobs: Knobs) -> Hostile {
    let mut tree = Hostile::new(knobs);
    (0..tree.room() as u64).for_each(|at| tree.array(at));
    tree
}

fn functions(knobs: Knobs) -> Hostile {
    let mut tree = Hostile::new(knobs);
    let count = tree.room() / 3;
    let windows = tree.windows(knobs.text, count);
    (0..count).for_each(|at| tree.function(windows.at(at), windows.at(at), &[], NONE, None));
    tree
}

/// The prime by which the library's digest takes a text's remainder (`records/specs/Digest.antt`: `rollStep`).
const DIGEST_PRIME: u64 = 4_294_967_291;

/// From a digest on, over the bytes of a text.
fn digest_from(digest: u64, text: &[u8]) -> u64 {
    text.iter().fold(digest, |digest, byte| (digest * 256 + u64::from(*byte)) % DIGEST_PRIME)
}

/// The eight bytes that bring a digest back to `wanted`: the mark, three with a number, by which they differ, and four with what is missing.
fn ending(digest: u64, wanted: u64, number: usize) -> [u8; 8] {
    let upper = (u64::from(MARK) << 56) + ((number as u64) << 32);
    let missing = wanted + DIGEST_PRIME - digest_from(digest, &u64::to_be_bytes(upper));
    (upper + missing % DIGEST_PRIME).to_be_bytes()
}

impl Hostile {
    /// So many texts of one length and digest, each eight bytes further than the one before.
    fn colliding(&mut self, bytes: usize, count: usize) -> (u32, u32) {
        let text = &mut self.layout.text;
        let base = text.len();
        let long = (bytes - base - 8 * count) / 8 * 8;
        text.resize(base + long, MARK);
        let wanted = digest_from(1, &text[base..]);
        for at in 1..count {
            let digest = digest_from(1, &text[base + 8 * at..]);
            text.extend(ending(digest, wanted, at));
        }
        (base as u32, long as u32)
    }
}

/// Who knows the digest ends each name so that all have one: all stand in one bucket, and share a beginning that is nearly the whole name.
fn collisions(knobs: Knobs) -> Hostile {
    let tree = Hostile::new(knobs);
    let count = (tree.room() / 3).min(knobs.text / 48);
    colliding_functions(tree, knobs, count)
}

/// The most names that can stand in one bucket, each eight bytes of the text.
fn short_collisions(knobs: Knobs) -> Hostile {
    let tree = Hostile::new(knobs);
    let count = (tree.room() / 3).min((knobs.text - tree.layout.text.len() - 24) / 16);
    colliding_functions(tree, knobs, count)
}

fn colliding_functions(mut tree: Hostile, knobs: Knobs, count: usize) -> Hostile {
    let (base, long) = tree.colliding(knobs.text, 2 * count);
    let text = |at: usize| (base + 8 * at as u32, long);
    (0..count).for_each(|at| tree.function(text(2 * at), text(2 * at + 1), &[], NONE, None));
    tree
}

/// Who knows the order as well makes each name part from every earlier one where that parted from those before it: a run of marks, longer by one after every
/// 255 names, another byte, and the ending.
fn spread_collisions(knobs: Knobs) -> Hostile {
    let mut tree = Hostile::new(knobs);
    let room = tree.room() / 3;
    let mut texts = Vec::new();
    while texts.len() < 2 * room {
        let (run, other) = (texts.len() / 255, texts.len() % 255);
        let text = &mut tree.layout.text;
        let start = text.len();
        if start + run + 9 > knobs.text {
            break;
        }
        text.extend(std::iter::repeat_n(MARK, run));
        text.push(if other < usize::from(MARK) { other as u8 } else { other as u8 + 1 });
        let digest = digest_from(1, &text[start..]);
        text.extend(ending(digest, 1, texts.len()));
        texts.push((start as u32, run as u32 + 9));
    }
    texts.chunks_exact(2).for_each(|pair| tree.function(pair[0], pair[1], &[], NONE, None));
    tree
}

/// So many functions with these names and mangled names, numbered from 1; then one of name 0 that alone takes a call of that name with
/// arguments of these types, and is found last.
fn called(tree: &mut Hostile, count: usize, types: &[u32], text: impl Fn(usize) -> (Text, Text)) {
    for at in 1..=count {
        let (name, mangled) = text(at);
        tree.function(name, mangled, &[], NONE, None);
    }
    let (names, mangled) = (tree.short("가나다라마바사"), tree.short("끝"));
    let params: Vec<(Text, u32)> = (1..).map(|length| (names.0, length)).zip(types.iter().copied()).collect();
    tree.function(text(0).0, mangled, &params, LONG_TYPE, None);
}

/// As many functions as the share says, and calls below a tower.
fn calls(knobs: Knobs) -> Hostile {
    let mut tree = Hostile::new(knobs);
    let count = tree.room() * knobs.share / 8 / 3;
    let windows = tree.windows(knobs.text, count + 2);
    called(&mut tree, count, &[], |at| (windows.at(at), windows.at(at)));
    tree.tower((knobs.depth, ADD), 1, move |tree| tree.call(windows.at(0), &[]))
}

fn short_calls(knobs: Knobs) -> Hostile {
    let mut tree = Hostile::new(knobs);
    let count = tree.room() * knobs.share / 8 / 3;
    let names: Vec<Text> = (0..=count).map(|at| tree.short(&format!("함{at:03}"))).collect();
    called(&mut tree, count, &[], |at| (names[at], names[at]));
    tree.tower((knobs.depth, ADD), 1, move |tree| tree.call(names[0], &[]))
}

/// The key text has three bytes, so verb, `$` and key text are as long as verb and `$...`.
fn joined_keys(knobs: Knobs) -> Hostile {
    let mut tree = Hostile::new(knobs);
    let count = tree.room() * knobs.share / 8 / 3;
    let windows = tree.windows(knobs.text, count + 2);
    let ty = tree.array_type((windows.base, 3));
    called(&mut tree, count, &[ty], |at| (windows.at(at), windows.wide(at, 4)));
    tree.tower((knobs.depth, ADD), 3, move |tree| {
        let arg = tree.push(TYPE_ARGUMENT, 0, &[ty]);
        tree.call(windows.at(0), &[arg])
    })
}

/// Each window is a key, and the verb is the first without its last four bytes.
fn prefixes(knobs: Knobs) -> Hostile {
    let mut tree = Hostile::new(knobs);
    let count = tree.room() * knobs.share / 8 / 3;
    let (base, long) = tree.marked(knobs.text, count + 1);
    called(&mut tree, count, &[], |at| {
        let start = base + 4 * at as u32;
        ((start, long - 4), (start, long))
    });
    tree.tower((knobs.depth, ADD), 1, move |tree| tree.call((base, long - 4), &[]))
}

fn nested_calls(knobs: Knobs) -> Hostile {
    let mut tree = Hostile::new(knobs);
    let count = tree.room() * knobs.share / 8 / 3;
    let windows = tree.windows(knobs.text, count + 2);
    called(&mut tree, count, &[LONG_TYPE], |at| (windows.at(at), windows.wide(at, 4)));
    let target = tree.short("변");
    let body = tree.fill(3 * knobs.depth + 2, |tree, _| {
        let mut inner = tree.int(1, 0);
        for _ in 0..knobs.depth {
            let arg = tree.value(inner);
            inner = tree.call(windows.at(0), &[arg]);
        }
        tree.init(target, inner)
    });
    tree.body(&body)
}

/// The key text is empty, so each type argument makes the joined key one byte longer; what takes the call is variadic.
fn type_arguments(knobs: Knobs) -> Hostile {
    let mut tree = Hostile::new(knobs);
    let count = tree.room() * knobs.share / 8 / 3;
    let each = (tree.room() - 3 * count - 2 * knobs.depth - 20) / 2;
    let windows = tree.windows(knobs.text, count + each);
    let ty = tree.array_type((0, 0));
    for at in 1..=count {
        tree.function(windows.at(at), windows.wide(at, (4 + at % each) as u32), &[], NONE, None);
    }
    let end = tree.short("끝");
    let (name, mangled) = (tree.text_of(NAME, windows.at(0)), tree.text_of(NAME, end));
    tree.push(FUNCTION, 2, &[name, mangled, NONE, LONG_TYPE, NONE]);
    let args: Vec<u32> = (0..each).map(|_| tree.push(TYPE_ARGUMENT, 0, &[ty])).collect();
    let mut nest = tree.call(windows.at(0), &args);
    for _ in 0..knobs.depth {
        let one = tree.int(1, 0);
        nest = tree.binary(ADD, nest, one);
    }
    tree.only(nest)
}

/// All functions have the verb as name and an unsigned parameter, where a negative constant does not fit; the last takes it. Of the foldings
/// division is the slowest.
fn overloads(knobs: Knobs) -> Hostile {
    let mut tree = Hostile::new(knobs);
    let count = tree.room() * knobs.share / 8 / 5;
    let windows = tree.windows(0, count + 2);
    let (verb, param) = (tree.short("부르다"), tree.short("값"));
    for at in 0..=count {
        let ty = if at == count { LONG_TYPE } else { ULONG_TYPE };
        tree.function(verb, windows.at(at), &[(param, ty)], LONG_TYPE, None);
    }
    let above = 2 * knobs.depth;
    let constants = (tree.room() - above - 20) / 2;
    let mut value = -1;
    let folded = tree.balanced(DIV, constants, |tree| tree.int(std::mem::replace(&mut value, 1), 0));
    let arg = tree.value(folded);
    let mut nest = tree.call(verb, &[arg]);
    for _ in 0..knobs.depth {
        let one = tree.int(1, 0);
        nest = tree.binary(ADD, nest, one);
    }
    tree.only(nest)
}

/// Calls of one constant argument, as statements.
fn constant_calls(mut tree: Hostile, verb: impl Fn(usize) -> Text) -> Hostile {
    let body = tree.fill(5, |tree, at| {
        let constant = tree.int(-1, 0);
        let arg = tree.value(constant);
        let call = tree.call(verb(at), &[arg]);
        tree.push(CALL_STATEMENT, 0, &[call])
    });
    tree.body(&body)
}

/// As `overloads`, with many calls of a short constant.
fn one_verb(knobs: Knobs) -> Hostile {
    let mut tree = Hostile::new(knobs);
    let count = tree.room() * knobs.share / 8 / 5;
    let windows = tree.windows(0, count + 2);
    let (verb, param) = (tree.short("부르다"), tree.short("값"));
    for at in 0..=count {
        let ty = if at == count { LONG_TYPE } else { ULONG_TYPE };
        tree.function(verb, windows.at(at), &[(param, ty)], LONG_TYPE, None);
    }
    constant_calls(tree, |_| verb)
}

/// No mangled name is a verb with its `$`, so that every call comes to the functions that literals fit.
fn verbs(knobs: Knobs) -> Hostile {
    let mut tree = Hostile::new(knobs);
    let count = tree.room() * knobs.share / 8 / 5;
    let windows = tree.windows(0, count + 2);
    let param = tree.short("값");
    let names: Vec<Text> = (0..=count).map(|at| tree.short(&format!("함{at:04}"))).collect();
    for (at, name) in names.iter().enumerate() {
        tree.function(*name, windows.at(at), &[(param, LONG_TYPE)], LONG_TYPE, None);
    }
    constant_calls(tree, move |at| names[at % names.len()])
}

/// Declares of names with a long equal beginning, then each of them in turn, assigned to the first.
fn all_names(knobs: Knobs) -> Hostile {
    let mut tree = Hostile::new(knobs);
    let count = (tree.room() - 3) * knobs.share / 8 / 2;
    let windows = tree.windows(knobs.text, count);
    let mut body: Vec<u32> = (0..count).map(|at| tree.declare(windows.at(at), LONG_TYPE)).collect();
    while tree.room() >= body.len() + 2 + 1 + 3 {
        let name = tree.text_of(NAME, windows.at((body.len() * 7) % count));
        let statement = tree.init(windows.at(0), name);
        body.push(statement);
    }
    tree.body(&body)
}

fn parameters(knobs: Knobs) -> Hostile {
    let mut tree = Hostile::new(knobs);
    let count = (tree.room() - 3) / 2;
    let windows = tree.windows(knobs.text, count);
    let params: Vec<(Text, u32)> = (0..count).map(|at| (windows.at(at), LONG_TYPE)).collect();
    let name = tree.short("함");
    tree.function(name, name, &params, NONE, Some(&[]));
    tree
}

fn declares(knobs: Knobs) -> Hostile {
    let mut tree = Hostile::new(knobs);
    let count = (tree.room() - 3) / 2;
    let windows = tree.windows(knobs.text, count);
    let body: Vec<u32> = (0..count).map(|at| tree.declare(windows.at(at), LONG_TYPE)).collect();
    tree.body(&body)
}

/// Declares in a block, then one name of them below a tower; `which` says which.
fn names(knobs: Knobs, which: fn(usize) -> usize) -> Hostile {
    let mut tree = Hostile::new(knobs);
    let count = (tree.room() - 3) * knobs.share / 8 / 2;
    let windows = tree.windows(knobs.text, count);
    let first: Vec<u32> = (0..count).map(|at| tree.declare(windows.at(at), LONG_TYPE)).collect();
    let name = windows.at(which(count));
    tree.tower_after(first, (knobs.depth, ADD), 1, move |tree| tree.text_of(NAME, name))
}

fn first_name(knobs: Knobs) -> Hostile {
    names(knobs, |_| 0)
}

fn last_name(knobs: Knobs) -> Hostile {
    names(knobs, |count| count - 1)
}

/// Nests over a leaf, from leaves and an operator, as values of one variable of the function.
fn nests(
    mut tree: Hostile,
    (depth, op): (usize, u8),
    ty: u32,
    mut leaf: impl FnMut(&mut Hostile) -> u32,
) -> Hostile {
    let target = tree.short("변");
    let first = tree.declare(target, ty);
    let mut body = vec![first];
    while tree.room() >= body.len() + 2 * (2 * depth + 1) + 6 {
        let mut nest = leaf(&mut tree);
        for _ in 0..depth {
            let right = leaf(&mut tree);
            nest = tree.binary(op, nest, right);
        }
        let statement = tree.init(target, nest);
        body.push(statement);
    }
    tree.body(&body)
}

/// Leaves are comparisons of two strings, all distinct.
fn strings(knobs: Knobs) -> Hostile {
    let mut tree = Hostile::new(knobs);
    let windows = tree.windows(knobs.text, knobs.records / 2);
    let mut made = 0;
    nests(tree, (knobs.depth, AND), BOOL_TYPE, move |tree| {
        let (left, right) = (tree.text_of(STR, windows.at(made)), tree.text_of(STR, windows.at(made + 1)));
        made += 2;
        tree.binary(EQ, left, right)
    })
}

/// The same with strings of one digest.
fn string_collisions(knobs: Knobs) -> Hostile {
    let mut tree = Hostile::new(knobs);
    let count = (knobs.records / 2).min(knobs.text / 24);
    let (base, long) = tree.colliding(knobs.text, count);
    let mut made = 0;
    nests(tree, (knobs.depth, AND), BOOL_TYPE, move |tree| {
        let mut next = || {
            made += 1;
            (base + 8 * (made % count) as u32, long)
        };
        let (left, right) = (next(), next());
        let (left, right) = (tree.text_of(STR, left), tree.text_of(STR, right));
        tree.binary(EQ, left, right)
    })
}

fn custom_collisions(knobs: Knobs) -> Hostile {
    let mut tree = Hostile::new(knobs);
    let count = tree.room().min(knobs.text / 24);
    let (base, long) = tree.colliding(knobs.text, count);
    (0..count as u32).for_each(|at| tree.custom((base + 8 * at, long)));
    tree
}

/// Text up to `bytes` in all, of eights that lead from digest 1 to digest 1, so that any run of them has that digest: where it begins, and how many there are.
fn eights(tree: &mut Hostile, bytes: usize) -> (u32, u32) {
    let text = &mut tree.layout.text;
    let base = text.len();
    let count = (bytes - base) / 8;
    (0..count).for_each(|at| text.extend(ending(1, 1, at)));
    (base as u32, count as u32)
}

/// From the first eight on one name for each number of eights, then from the second on.
fn custom_beginnings(knobs: Knobs) -> Hostile {
    let mut tree = Hostile::new(knobs);
    let (base, count) = eights(&mut tree, knobs.text);
    let runs = (0..count).flat_map(|first| (1..=count - first).map(move |long| (base + 8 * first, 8 * long)));
    runs.take(tree.room()).for_each(|name| tree.custom(name));
    tree
}

fn custom_suspects(knobs: Knobs) -> Hostile {
    let mut tree = Hostile::new(knobs);
    let end = tree.layout.text.len() + 16;
    let (base, _) = eights(&mut tree, end);
    tree.custom((base, 8));
    tree.custom((base + 8, 8));
    let count = tree.room().min(knobs.text / 2 - tree.layout.text.len());
    let windows = tree.windows(knobs.text, count);
    (0..count).for_each(|at| tree.custom(windows.at(at)));
    tree
}

/// What the library's digest multiplies by (`records/specs/Digest.antt`: `digest_step`, `digest_end`).
const DIGEST_FACTORS: [u64; 3] = [663_608_941, 1_013_904_223, 1_481_765_933];

fn folded(x: u64) -> u64 {
    (x & 0xFFFF_FFFF) + (x >> 32)
}

fn digest_step(digest: u64, first: u64, second: u64) -> u64 {
    folded(digest * DIGEST_FACTORS[0] + first + second * DIGEST_FACTORS[1])
}

fn digest_end(digest: u64) -> u64 {
    folded(digest * DIGEST_FACTORS[2]) & 0xFFFF_FFFF
}

/// Digests of the first bucket, whatever the number of types up to that of the records.
fn in_first_bucket(digest: u64, knobs: Knobs) -> bool {
    digest * (knobs.records as u64) >> 32 == 0
}

/// The first windows of a text of odd bytes, the shortest first, that are in the first bucket: of each digest one, but two names of one, so that names are looked at too.
fn custom_buckets(knobs: Knobs) -> Hostile {
    let mut tree = Hostile::new(knobs);
    let base = tree.layout.text.len();
    let mut state = 1u64;
    tree.layout.text.extend((base..knobs.text).map(|_| {
        state = state.wrapping_mul(6_364_136_223_846_793_005).wrapping_add(1_442_695_040_888_963_407);
        (state >> 56) as u8
    }));
    let text = tree.layout.text[base..].to_vec();
    let mut digests = vec![1; text.len()];
    let mut seen = std::collections::HashSet::new();
    let mut twice = false;
    for long in 1..=text.len() {
        for first in 0..=text.len() - long {
            digests[first] = (digests[first] * 256 + u64::from(text[first + long - 1])) % DIGEST_PRIME;
            let digest = digest_end(digests[first]);
            if !in_first_bucket(digest, knobs) {
                continue;
            }
            if seen.insert(digest) || long > 8 && !std::mem::replace(&mut twice, true) {
                tree.custom(((base + first) as u32, long as u32));
            }
            if tree.room() == 0 {
                return tree;
            }
        }
    }
    tree
}

/// The first counts whose arrays are in the first bucket, of each digest one.
fn array_buckets(knobs: Knobs) -> Hostile {
    let mut tree = Hostile::new(knobs);
    let before = digest_step(1, 7, u64::from(LONG_TYPE));
    let mut seen = std::collections::HashSet::new();
    let counts = (0..u64::from(u32::MAX)).filter(|count| {
        let digest = digest_end(digest_step(before, *count, 0));
        in_first_bucket(digest, knobs) && seen.insert(digest)
    });
    counts.take(tree.room()).for_each(|count| tree.array(count));
    tree
}

/// Each upper half with the lower half that makes their sum one number, and the words of the count that lead there.
fn array_collisions(knobs: Knobs) -> Hostile {
    let mut tree = Hostile::new(knobs);
    let before = digest_step(1, 7, u64::from(LONG_TYPE)) * DIGEST_FACTORS[0];
    let sum = 0xFFFF_FFFF;
    let first = (before >> 32) + 1;
    for upper in first..first + tree.room() as u64 {
        let rest = (upper << 32) + (sum - upper) - before;
        tree.array((rest / DIGEST_FACTORS[1] << 32) + rest % DIGEST_FACTORS[1]);
    }
    tree
}

fn labels(knobs: Knobs) -> Hostile {
    nests(Hostile::new(knobs), (knobs.depth, OR), BOOL_TYPE, |tree| tree.push(BOOL, 1, &[]))
}

fn ifs(knobs: Knobs) -> Hostile {
    let mut tree = Hostile::new(knobs);
    let body = tree.fill(2, |tree, _| {
        let test = tree.push(BOOL, 1, &[]);
        tree.push(IF, 1, &[test, NONE, NONE])
    });
    tree.body(&body)
}

fn floats(knobs: Knobs) -> Hostile {
    let mut made = 0;
    nests(Hostile::new(knobs), (knobs.depth, ADD), SINGLE_TYPE, move |tree| {
        made += 1;
        if made % (knobs.depth + 1) == 1 {
            let target = tree.short("변");
            return tree.text_of(NAME, target);
        }
        tree.float(made as f64, 0)
    })
}

fn ands(knobs: Knobs) -> Hostile {
    let mut tree = Hostile::new(knobs);
    let name = tree.short("참");
    let first = tree.declare(name, BOOL_TYPE);
    tree.tower_after(vec![first], (knobs.depth, AND), 1, move |tree| tree.text_of(NAME, name))
}

fn comparisons(knobs: Knobs) -> Hostile {
    Hostile::new(knobs).tower((knobs.depth, EQ), 1, |tree| tree.push(BOOL, 1, &[]))
}

/// The literal on the left is of another type at each level, so what stands on its right is folded to see whether it fits.
fn folds(knobs: Knobs) -> Hostile {
    let mut tree = Hostile::new(knobs);
    let mut nest = tree.balanced(DIV, (tree.room() - 2 * knobs.depth - 10) / 2, |tree| tree.int(1, 0));
    for level in 0..knobs.depth {
        let left = tree.int(1, if level % 2 == 0 { 2 } else { 0 });
        nest = tree.binary(MUL, left, nest);
    }
    tree.only(nest)
}

fn float_folds(knobs: Knobs) -> Hostile {
    let mut tree = Hostile::new(knobs);
    let mut nest = tree.balanced(MUL, (tree.room() - 2 * knobs.depth - 10) / 2, |tree| tree.float(1.0, 0));
    for level in 0..knobs.depth {
        let left = tree.float(0.5, if level % 2 == 0 { 1 } else { 0 });
        nest = tree.binary(ADD, left, nest);
    }
    tree.only(nest)
}
