//! Forms that generated trees seldom hold, told from a tree that converted, so that they can be counted.

use std::collections::BTreeSet;

use crate::tables::Tables;
use crate::tree::*;

/// Names of types by detail.
const TYPE_NAMES: [(u8, &str); 13] = [
    (1, "Int"),
    (17, "Int short"),
    (33, "Int unsigned"),
    (49, "Int unsigned short"),
    (2, "Float"),
    (18, "Float short"),
    (3, "Bool"),
    (4, "Char"),
    (5, "Byte"),
    (6, "Address"),
    (7, "Array"),
    (8, "Custom"),
    (9, "Null"),
];

fn type_name(detail: u8) -> &'static str {
    TYPE_NAMES.iter().find(|(known, _)| *known == detail).map_or("", |(_, name)| *name)
}

/// The classes of which casts tell more than scalars do.
const CAST_CLASSES: [(u8, &str); 4] = [(1, "Int"), (33, "Int unsigned"), (6, "Address"), (9, "Null")];

/// Every form that is looked for.
pub fn known() -> Vec<String> {
    let mut forms: Vec<String> = TWO_SIDES.iter().chain(&ONE_SIDE).map(|name| name.to_string()).collect();
    forms.extend(["Address", "Array", "Null"].map(|name| format!("a function returns {name}")));
    for (detail, name) in TYPE_NAMES {
        // Addresses of Char and Null stand in every tree.
        forms.extend((detail != 4 && detail != 9).then(|| format!("Address of {name}")));
        forms.push(format!("Array of {name}"));
    }
    for (from, to) in [(0, 2), (1, 2), (2, 0), (2, 1), (2, 2), (3, 0), (3, 1), (3, 2)] {
        forms.push(cast_name(CAST_CLASSES[from].0, CAST_CLASSES[to].0));
    }
    forms
}

const TWO_SIDES: [&str; 2] = ["Null beside a string", "a string beside Null"];
const ONE_SIDE: [&str; 8] = [
    "a cast of a short unsigned literal",
    "a cast with two types",
    "a string as statement",
    "Null as statement",
    "an empty body, two parameters",
    "an empty body, variadic",
    "an empty body, two parameters, variadic",
    "a name with $, not external",
];

fn cast_name(from: u8, to: u8) -> String {
    format!("a cast of {} to {}", type_name(from), type_name(to))
}

/// The forms in a tree with these tables.
pub fn forms(tree: &Tree, tables: &Tables) -> BTreeSet<String> {
    let mut forms = BTreeSet::new();
    for (at, record) in (0u32..).zip(&tree.records) {
        match record.kind {
            TYPE if at >= 12 && record.detail == 6 => _ = forms.insert(element("Address", tree, record)),
            TYPE if at >= 12 && record.detail == 7 => _ = forms.insert(element("Array", tree, record)),
            BINARY => forms.extend(comparison(tree, record)),
            CALL if tree.is_cast(at) => forms.extend(cast(tree, record)),
            CALL_STATEMENT if tree.at(record.a()).kind == STR => _ = forms.insert(ONE_SIDE[2].to_string()),
            CALL_STATEMENT if tree.at(record.a()).kind == NULL => _ = forms.insert(ONE_SIDE[3].to_string()),
            FUNCTION => forms.extend(function(tree, at)),
            _ => {}
        }
    }
    forms.extend(cast_classes(tree, tables));
    forms
}

fn element(of: &str, tree: &Tree, record: &Record) -> String {
    format!("{of} of {}", type_name(tree.at(record.a()).detail))
}

fn comparison(tree: &Tree, record: &Record) -> Option<String> {
    let name = match (record.detail, tree.at(record.a()).kind, tree.at(record.b()).kind) {
        (5 | 6, NULL, STR) => TWO_SIDES[0],
        (5 | 6, STR, NULL) => TWO_SIDES[1],
        _ => return None,
    };
    Some(name.to_string())
}

fn cast(tree: &Tree, record: &Record) -> Vec<String> {
    let items = tree.items(record.c());
    let of_kind = |kind: u8| items.iter().map(|item| tree.at(*item)).filter(move |item| item.kind == kind);
    let literal = of_kind(VALUE).next().map(|item| tree.at(item.a()));
    let short = literal.is_some_and(|literal| (literal.kind, literal.detail) == (INT, 3));
    let two = of_kind(TYPE_ARGUMENT).count() == 2;
    [(short, ONE_SIDE[0]), (two, ONE_SIDE[1])]
        .iter()
        .filter(|form| form.0)
        .map(|form| form.1.to_string())
        .collect()
}

fn function(tree: &Tree, at: u32) -> Vec<String> {
    let record = tree.at(at);
    let (has_body, variadic) = (record.detail & 4 != 0, record.detail & 2 != 0);
    let (empty, two) = (has_body && record.e() == NONE, tree.items(record.c()).len() >= 2);
    let dollar = record.detail & 1 == 0 && tree.own_text(record.a()).contains(&b'$');
    let marked = [
        (empty && two, ONE_SIDE[4]),
        (empty && variadic, ONE_SIDE[5]),
        (empty && two && variadic, ONE_SIDE[6]),
        (dollar, ONE_SIDE[7]),
    ];
    let mut forms: Vec<String> = marked.iter().filter(|form| form.0).map(|form| form.1.to_string()).collect();
    let returned = (record.d() != NONE).then(|| tree.at(record.d()).detail);
    if let Some(detail @ (6 | 7 | 9)) = returned.filter(|_| has_body && record.e() != NONE) {
        forms.push(format!("a function returns {}", type_name(detail)));
    }
    forms
}

/// Casts from and to addresses, told by the types of operand and destination.
fn cast_classes(tree: &Tree, tables: &Tables) -> Vec<String> {
    let words = |table: &[u8], entry: usize, bytes: usize| -> Vec<u32> {
        let entry = table[entry * bytes..(entry + 1) * bytes].chunks_exact(4);
        entry.map(|word| u32::from_le_bytes(word.try_into().unwrap())).collect()
    };
    let mut forms = Vec::new();
    for function in 0..tables.functions.len() / 32 {
        let entry = words(&tables.functions, function, 32);
        let variable = |at: u32| tree.at(words(&tables.variables, (entry[4] + at) as usize, 4)[0]).detail;
        for at in entry[2]..entry[2] + entry[3] {
            let instruction = words(&tables.instructions, at as usize, 32);
            let [kind, _, tag, _] = instruction[0].to_le_bytes();
            let from = match tag {
                1 => variable(instruction[2]),
                2 => 1,
                4 => 33,
                8 => 6,
                9 => 9,
                _ => 0,
            };
            if kind == 4 {
                forms.push(cast_name(from, variable(instruction[1])));
            }
        }
    }
    forms
}
