//! Good records one by one, from which trees with one fault are put together.

use crate::ast::Layout;
use crate::tree::*;

/// The twelve types and these, then a function.
pub fn start(types: &[Record]) -> Layout {
    let mut layout = Layout::program(&[]);
    layout.records.extend(types);
    sample(&mut layout, FUNCTION);
    layout
}

fn usual_detail(kind: u8) -> u8 {
    match kind {
        IF => 1,
        FUNCTION => 4,
        _ => 0,
    }
}

/// A good record of a kind, after all that it refers to; the first type for a type.
pub fn sample(layout: &mut Layout, kind: u8) -> u32 {
    if kind == TYPE {
        return 0;
    }
    let words = parts(layout, kind, None);
    layout.push(kind, usual_detail(kind), &words, 0)
}

/// A record with `target` in one word, good otherwise.
pub fn holder(layout: &mut Layout, kind: u8, word: usize, target: u32) -> u32 {
    let mut words = parts(layout, kind, Some(word));
    words[word] = target;
    layout.push(kind, usual_detail(kind), &words, 0)
}

/// Good words for a record, but for word `skip`; what they refer to is made.
fn parts(layout: &mut Layout, kind: u8, skip: Option<usize>) -> [u32; 5] {
    let mut words = [0; 5];
    for (at, role) in roles_of(kind, 0).into_iter().enumerate() {
        match role {
            _ if skip == Some(at) => {}
            Role::Text => {
                let text = format!("가{}", layout.records.len());
                (words[at], words[at + 1]) = layout.text(text.as_bytes());
            }
            Role::Expression if kind == IF || kind == WHILE => words[at] = sample(layout, BOOL),
            Role::Expression => words[at] = sample(layout, INT),
            Role::Name => words[at] = sample(layout, NAME),
            Role::LoopVariable => words[at] = sample(layout, VARIABLE),
            Role::Item => words[at] = sample(layout, DECLARE),
            Role::TypeOrNone if kind == FUNCTION => words[at] = NONE,
            Role::Rest | Role::Arguments | Role::Parameters | Role::Body => words[at] = NONE,
            Role::Unused | Role::Value | Role::Length | Role::Type | Role::TypeOrNone => {}
        }
    }
    words
}

pub fn roles_of(kind: u8, detail: u8) -> [Role; 5] {
    roles(&Record::new(kind, detail, [0; 5])).expect("a known form")
}

/// The words of a kind that refer to records.
pub fn references(kind: u8) -> impl Iterator<Item = (usize, Role)> {
    roles_of(kind, 0).into_iter().enumerate().filter(|(_, role)| role.refers())
}

/// Gives a record its place in a function.
pub fn home(layout: &mut Layout, at: u32) {
    let record = layout.records[at as usize];
    let item = layout.records.get(record.a() as usize).map_or(0, |item| item.kind);
    let holder = match record.kind {
        TYPE | FUNCTION => return,
        INT..=CALL => layout.push(CALL_STATEMENT, 0, &[at], 0),
        VARIABLE if record.c() == NONE => holder(layout, FOR, 0, at),
        LIST if item == VALUE || item == TYPE_ARGUMENT => holder(layout, CALL, 2, at),
        LIST if item == VARIABLE => holder(layout, FUNCTION, 2, at),
        LIST => holder(layout, FUNCTION, 4, at),
        _ => layout.push(LIST, 0, &[at, NONE], 0),
    };
    home(layout, holder)
}

/// A list of these items.
pub fn list(layout: &mut Layout, items: &[u32]) -> u32 {
    items.iter().rev().fold(NONE, |rest, item| layout.push(LIST, 0, &[*item, rest], 0))
}

/// A good target for a word, at the end.
pub fn target(layout: &mut Layout, role: Role) -> u32 {
    let item = match role {
        Role::Type | Role::TypeOrNone => {
            layout.records.push(Record::new(TYPE, 7, [0, 9, 0, 0, 0]));
            return layout.records.len() as u32 - 1;
        }
        Role::Expression => return sample(layout, INT),
        Role::Name => return sample(layout, NAME),
        Role::LoopVariable => return sample(layout, VARIABLE),
        Role::Item => return sample(layout, DECLARE),
        Role::Arguments => VALUE,
        Role::Parameters => VARIABLE,
        _ => DECLARE,
    };
    let item = sample(layout, item);
    list(layout, &[item])
}
