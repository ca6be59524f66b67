//! The checks before conversion: lengths, buffers, records and nesting, from document 01 alone.

use crate::tree::*;

/// A refusal: its number, the record at fault (FFFFFFFF for none) and that record's span.
#[derive(Clone, Copy, Debug, PartialEq, Eq)]
pub struct Refusal {
    pub number: u32,
    pub place: u32,
    pub start: u32,
    pub end: u32,
}

impl Refusal {
    pub fn new(number: u32, place: u32) -> Self {
        Self { number, place, start: 0, end: 0 }
    }
}

pub const FEWEST_RECORDS: usize = 12;
pub const MOST_RECORDS: usize = 16_384;
/// The most records that a tree had before the limit was raised (document 02, point 14); sizes on both sides of it are generated.
pub const MOST_RECORDS_ONCE: usize = 2048;
pub const DEEPEST: u32 = 64;

/// Bytes that each record needs: instructions, variables, labels, functions, strings, floats, scratch.
pub const BYTES_PER_RECORD: [usize; 7] = [320, 12, 24, 32, 8, 32, 72];

/// The buffer lengths that just suffice for a tree of `tree_len` bytes.
pub fn needed(tree_len: usize) -> [usize; 7] {
    BYTES_PER_RECORD.map(|bytes| bytes * (tree_len / RECORD_BYTES))
}

/// The rows lengths, buffers, records and nesting; the first that applies wins.
pub fn judge(tree: &[u8], text: &[u8], lens: [usize; 7]) -> Result<(), Refusal> {
    let n = tree.len() / RECORD_BYTES;
    if !tree.len().is_multiple_of(RECORD_BYTES) || !(FEWEST_RECORDS..=MOST_RECORDS).contains(&n) {
        return Err(Refusal::new(24, NONE));
    }
    if needed(tree.len()).iter().zip(lens).any(|(need, len)| len < *need) {
        return Err(Refusal::new(26, NONE));
    }
    let tree = Tree::new(tree, text);
    if let Some(place) = first_fault(&tree) {
        return Err(Refusal::new(24, place));
    }
    match first_too_deep(&tree) {
        Some(place) => Err(Refusal::new(25, place)),
        None => Ok(()),
    }
}

/// The lowest record that breaks a rule.
fn first_fault(tree: &Tree) -> Option<u32> {
    let counts = reference_counts(tree);
    (0..tree.records.len() as u32).find(|&record| {
        let kind = tree.at(record).kind;
        let counted = kind == TYPE || kind == FUNCTION || counts[record as usize] == 1;
        !counted || !form_holds(tree, record) || !type_order_holds(tree, record)
    })
}

/// How often each record is referred to, by any record whose kind (and type's detail) is known.
fn reference_counts(tree: &Tree) -> Vec<u32> {
    let mut counts = vec![0; tree.records.len()];
    for record in &tree.records {
        let Some(roles) = roles(record) else { continue };
        for (role, word) in roles.iter().zip(record.words) {
            if role.refers() && (word as usize) < counts.len() {
                counts[word as usize] += 1;
            }
        }
    }
    counts
}

/// Kind, detail, zero bytes, words and marks of one record, with the lists that it opens.
fn form_holds(tree: &Tree, at: u32) -> bool {
    let record = tree.at(at);
    let Some(roles) = roles(record) else { return false };
    let detail_known = record.kind == TYPE || record.detail <= largest_detail(record.kind);
    let mark_missing = match record.kind {
        IF => record.detail & 1 == 0 && record.c() != NONE,
        FUNCTION => record.detail & 4 == 0 && record.e() != NONE,
        _ => false,
    };
    detail_known && record.pad == [0; 2] && !mark_missing && (0..5).all(|i| word_holds(tree, at, roles[i], i))
}

fn word_holds(tree: &Tree, at: u32, role: Role, index: usize) -> bool {
    let words = &tree.at(at).words;
    let word = words[index];
    match role {
        Role::Unused => word == 0,
        Role::Value | Role::Length => true,
        Role::Text => u64::from(word) + u64::from(words[index + 1]) <= tree.text.len() as u64,
        _ if word == NONE => role.optional(),
        _ if word >= at => false,
        Role::Type | Role::TypeOrNone => tree.at(word).kind == TYPE,
        Role::Expression => tree.at(word).is_expression(),
        Role::Name => tree.at(word).kind == NAME,
        Role::LoopVariable => tree.at(word).kind == VARIABLE,
        Role::Item => true,
        Role::Rest => tree.at(word).kind == LIST,
        Role::Arguments => list_holds(tree, word, |item| item.kind == VALUE || item.kind == TYPE_ARGUMENT),
        Role::Parameters => list_holds(tree, word, |item| item.kind == VARIABLE && item.c() != NONE),
        Role::Body => list_holds(tree, word, Record::is_statement),
    }
}

/// Whether `first` is a list and its items are `wanted`. A cell whose own words are wrong is at
/// fault itself, and lower, so the walk just ends there.
fn list_holds(tree: &Tree, first: u32, wanted: impl Fn(&Record) -> bool) -> bool {
    if tree.at(first).kind != LIST {
        return false;
    }
    let mut cell = first;
    loop {
        let record = tree.at(cell);
        if record.a() < cell && !wanted(tree.at(record.a())) {
            return false;
        }
        if record.b() >= cell || tree.at(record.b()).kind != LIST {
            return true;
        }
        cell = record.b();
    }
}

/// The twelve types that open every tree: detail and word A.
pub const FIRST_TYPES: [(u8, u32); 12] =
    [(1, 0), (17, 0), (33, 0), (49, 0), (2, 0), (18, 0), (3, 0), (4, 0), (5, 0), (9, 0), (6, 7), (6, 9)];

/// Types come first, the twelve before all others, and no two are equal.
fn type_order_holds(tree: &Tree, at: u32) -> bool {
    let record = tree.at(at);
    if let Some(first) = FIRST_TYPES.get(at as usize) {
        return record.kind == TYPE && (record.detail, record.a()) == *first;
    }
    if record.kind != TYPE {
        return true;
    }
    (0..at).all(|before| tree.at(before).kind == TYPE && !same_type(tree, before, at))
}

/// Whether two types are equal, key text aside. Lower types are distinct (else one of them is the
/// lowest fault), so inner types are equal exactly when their records are the same.
fn same_type(tree: &Tree, left: u32, right: u32) -> bool {
    let (l, r) = (tree.at(left), tree.at(right));
    if l.detail != r.detail {
        return false;
    }
    match l.detail {
        6 => l.a() == r.a(),
        7 => l.a() == r.a() && l.count() == r.count(),
        8 => match (text_at(tree, l), text_at(tree, r)) {
            (Some(left), Some(right)) => left == right,
            _ => false,
        },
        _ => true,
    }
}

/// A Custom's name, if it lies in the buffer.
fn text_at<'t>(tree: &Tree<'t>, record: &Record) -> Option<&'t [u8]> {
    tree.text.get(record.a() as usize..)?.get(..record.b() as usize)
}

/// The lowest record deeper than 64.
fn first_too_deep(tree: &Tree) -> Option<u32> {
    depths(tree).iter().position(|depth| *depth > DEEPEST).map(|at| at as u32)
}

/// The depth of each record of a tree whose records keep the rules.
pub fn depths(tree: &Tree) -> Vec<u32> {
    let mut depths: Vec<u32> = Vec::with_capacity(tree.records.len());
    for record in &tree.records {
        let words = roles(record).into_iter().flatten().zip(record.words);
        let referred = words.filter(|(role, word)| role.refers() && *word != NONE);
        let deepest = referred.map(|(_, word)| depths[word as usize]).max().unwrap_or(0);
        depths.push(if record.kind == LIST { deepest } else { deepest + 1 });
    }
    depths
}
