//! Each rule of the record form broken in each way: one fault in a tree that is good otherwise, with good records before and behind it;
//! and trees that just keep a rule.

use std::sync::OnceLock;

use super::pieces::*;
use super::{Case, whole};
use crate::ast::Layout;
use crate::judge::{DEEPEST, FIRST_TYPES, judge};
use crate::tree::*;

/// Types behind the first twelve: an Address, an Array, a Custom.
const ADDRESS: Record = ty(6, [6, 0, 0, 0, 0]);
const ARRAY: Record = ty(7, [0, 3, 5, 0, 0]);
const CUSTOM: Record = ty(8, [0, 3, 0, 0, 0]);

const fn ty(detail: u8, words: [u32; 5]) -> Record {
    Record { kind: TYPE, detail, pad: [0; 2], words, start: 0, end: 0 }
}

/// The words that open lists, each with a kind of item that may stand there.
const OPENERS: [(u8, usize, u8); 7] = [
    (CALL, 2, VALUE),
    (IF, 1, DECLARE),
    (IF, 2, DECLARE),
    (WHILE, 1, DECLARE),
    (FOR, 3, DECLARE),
    (FUNCTION, 2, VARIABLE),
    (FUNCTION, 4, DECLARE),
];

/// The forms: the types by detail, then the other kinds.
fn forms() -> Vec<(u8, u8)> {
    let types = [1, 17, 33, 49, 2, 18, 3, 4, 5, 9, 6, 7, 8].map(|detail| (TYPE, detail));
    types.into_iter().chain((INT..=FUNCTION).map(|kind| (kind, 0))).collect()
}

/// A good tree and its record of a form.
fn good((kind, detail): (u8, u8)) -> (Layout, usize) {
    let mut layout = start(&[ADDRESS, ARRAY, CUSTOM]);
    let at = match (kind, detail) {
        (TYPE, 6..=8) => 12 + usize::from(detail) - 6,
        (TYPE, _) => FIRST_TYPES.iter().position(|first| first.0 == detail).unwrap_or(0),
        _ => {
            let at = sample(&mut layout, kind);
            home(&mut layout, at);
            at as usize
        }
    };
    sample(&mut layout, FUNCTION);
    (layout, at)
}

#[derive(Default)]
struct Cases(Vec<Case>);

impl Cases {
    /// Keeps a tree as it is; each record has a span of its own.
    fn keep(&mut self, mut layout: Layout) {
        for (at, record) in (0..).zip(&mut layout.records) {
            (record.start, record.end) = (7 * at + 1, 7 * at + 5);
        }
        self.0.push(whole(layout));
    }

    /// Keeps a tree with a function behind what is made.
    fn close(&mut self, mut layout: Layout) {
        sample(&mut layout, FUNCTION);
        self.keep(layout);
    }

    /// Keeps a tree in which `at` has its place, and a function stands behind it.
    fn at_home(&mut self, mut layout: Layout, at: u32) {
        home(&mut layout, at);
        self.close(layout);
    }

    /// Keeps a good tree with a change to its record of a form.
    fn edited(&mut self, form: (u8, u8), edit: impl FnOnce(&mut Record, u32)) {
        let (mut layout, at) = good(form);
        edit(&mut layout.records[at], layout.text.len() as u32);
        self.keep(layout);
    }
}

fn details(cases: &mut Cases) {
    for kind in INT..=FUNCTION {
        let largest = largest_detail(kind);
        let high = (0..8).map(|bit| 1 << bit).filter(|bit| *bit > largest + 1);
        for detail in (0..=largest + 1).chain(high).chain([255]) {
            cases.edited((kind, 0), |record, _| record.detail = detail);
        }
    }
    let known: Vec<u8> = forms().iter().filter(|form| form.0 == TYPE).map(|form| form.1).collect();
    let marked = known.iter().flat_map(|detail| [detail | 64, detail | 128]);
    for detail in (0..64).filter(|detail| !known.contains(detail)).chain(marked) {
        let words = [(6, ADDRESS), (7, ARRAY), (8, CUSTOM)];
        let words = words.iter().find(|(low, _)| *low == detail & 15).map_or([0; 5], |(_, like)| like.words);
        cases.close(start(&[ty(detail, words)]));
    }
}

/// Bytes 2 and 3, unused words, texts.
fn fields(cases: &mut Cases) {
    for form in forms() {
        cases.edited(form, |record, _| record.pad[0] = [1, 128, 255][usize::from(form.0) % 3]);
        cases.edited(form, |record, _| record.pad[1] = [255, 1, 128][usize::from(form.0) % 3]);
        for (word, role) in roles_of(form.0, form.1).into_iter().enumerate() {
            for value in [1, 1 << 24, NONE].into_iter().filter(|_| role == Role::Unused) {
                cases.edited(form, |record, _| record.words[word] = value);
            }
            let texts = [(0, 0, 0), (0, 1, 0), (1, 0, 0), (0, 0, 1), (0, 0, 2)];
            for (from, length, way) in texts.into_iter().filter(|_| role == Role::Text) {
                cases.edited(form, |record, end| {
                    let text = [(end + from, length), (0, end), (NONE, 2)][way];
                    (record.words[word], record.words[word + 1]) = text;
                });
            }
            if role == Role::Text {
                cases.edited(form, |record, end| (record.words[word], record.words[word + 1]) = (0, end + 1));
                cases.edited(form, |record, end| {
                    (record.words[word], record.words[word + 1]) = (end + 2, NONE)
                });
            }
        }
    }
}

/// Each word that refers: to each kind, to none, to its own record, to a higher one, past the end.
fn targets(cases: &mut Cases) {
    for kind in INT..=FUNCTION {
        for (word, role) in references(kind) {
            for wanted in TYPE..=FUNCTION {
                let mut layout = start(&[ADDRESS]);
                let target = sample(&mut layout, wanted);
                let at = holder(&mut layout, kind, word, target);
                cases.at_home(layout, at);
            }
            let held = |to: u32| {
                let mut layout = start(&[ADDRESS]);
                let at = holder(&mut layout, kind, word, to);
                (layout, at)
            };
            let (layout, at) = held(NONE);
            cases.at_home(layout, at);
            // Nothing else refers to a record that refers to itself, so that the count is right.
            let (mut layout, at) = held(0);
            layout.records[at as usize].words[word] = at;
            cases.close(layout);
            let (mut layout, at) = held(0);
            layout.records[at as usize].words[word] = target(&mut layout, role);
            cases.at_home(layout, at);
            for past in 0..2 {
                let (mut layout, at) = held(0);
                home(&mut layout, at);
                layout.records[at as usize].words[word] = layout.records.len() as u32 + past;
                cases.keep(layout);
            }
        }
    }
    for wrong in [ADDRESS, ARRAY] {
        for to in [12, 13, 14, 99, NONE] {
            let words = [to, wrong.words[1], wrong.words[2], 0, 0];
            cases.keep(start(&[ty(wrong.detail, words), CUSTOM]));
        }
    }
}

/// Lists of three items, one of them of each kind in turn, in each place.
fn items(cases: &mut Cases) {
    for (kind, word, right) in OPENERS {
        for (position, item) in
            (0..3).flat_map(|position| (TYPE..=FUNCTION).map(move |item| (position, item)))
        {
            let mut layout = start(&[ADDRESS]);
            let items = [0, 1, 2].map(|at| sample(&mut layout, if at == position { item } else { right }));
            let first = list(&mut layout, &items);
            let at = holder(&mut layout, kind, word, first);
            cases.at_home(layout, at);
        }
    }
    for position in 0..3 {
        let mut layout = start(&[ADDRESS]);
        let items = [(); 3].map(|()| sample(&mut layout, VARIABLE));
        layout.records[items[position] as usize].words[2] = NONE;
        let first = list(&mut layout, &items);
        holder(&mut layout, FUNCTION, 2, first);
        cases.close(layout);
    }
}

/// Records that nothing refers to, and that two, three or 257 refer to.
fn counts(cases: &mut Cases) {
    for kind in INT..FUNCTION {
        for times in [0, 2, 3] {
            let mut layout = start(&[ADDRESS]);
            let at = sample(&mut layout, kind);
            (0..times).for_each(|_| home(&mut layout, at));
            cases.close(layout);
        }
    }
    for times in [256, 257] {
        let mut layout = start(&[]);
        let at = sample(&mut layout, INT);
        let calls: Vec<u32> = (0..times).map(|_| layout.push(CALL_STATEMENT, 0, &[at], 0)).collect();
        let body = list(&mut layout, &calls);
        cases.at_home(layout, body);
    }
    let mut layout = start(&[]);
    let name = sample(&mut layout, NAME);
    layout.push(FUNCTION, 4, &[name, name, NONE, NONE, NONE], 0);
    cases.close(layout);
    let mut layout = start(&[]);
    let function = sample(&mut layout, FUNCTION);
    let body = list(&mut layout, &[function, function]);
    cases.at_home(layout, body);
}

/// Kinds that there are not, with and without a reference in word A.
fn kinds(cases: &mut Cases) {
    for kind in [0, 26, 27, 31, 32, 22 + 32, 22 + 64, 22 + 128, 255] {
        cases.edited((BREAK, 0), |record, _| record.kind = kind);
        cases.edited((RETURN, 0), |record, _| record.kind = kind);
    }
}

fn marks(cases: &mut Cases) {
    for (kind, word, detail) in
        [(IF, 2, 0), (FUNCTION, 4, 0), (FUNCTION, 4, 1), (FUNCTION, 4, 2), (FUNCTION, 4, 3)]
    {
        let mut layout = start(&[]);
        let body = target(&mut layout, Role::Body);
        let at = holder(&mut layout, kind, word, body);
        layout.records[at as usize].detail = detail;
        cases.at_home(layout, at);
    }
}

/// The first twelve: each another type, no type, or in another's place.
fn first_types(cases: &mut Cases) {
    for (at, (known, _)) in FIRST_TYPES.into_iter().enumerate() {
        let change = |record: Record| {
            let mut layout = start(&[]);
            layout.records[at] = record;
            layout
        };
        cases.close(change(CUSTOM));
        let other = change(Record::new(BOOL, 0, [0; 5]));
        // The two addresses refer to types 7 and 9 already.
        if at == 7 || at == 9 {
            cases.close(other)
        } else {
            cases.at_home(other, at as u32)
        }
        // An Int whose detail and word A are those of the type.
        for detail in [1, 2, 3].into_iter().filter(|detail| *detail == known) {
            cases.at_home(change(Record::new(INT, detail, [0; 5])), at as u32);
        }
        for to in (0..at as u32).filter(|_| at >= 10) {
            cases.close(change(ty(6, [to, 0, 0, 0, 0])));
        }
        for other in 0..at {
            let mut layout = start(&[]);
            layout.records.swap(at, other);
            cases.close(layout);
        }
    }
}

/// Equal types and types that nearly are, next to each other and with another between; types behind other kinds.
fn equal_types(cases: &mut Cases) {
    for (detail, a) in FIRST_TYPES {
        cases.close(start(&[ty(detail, [a, 0, 0, 0, 0])]));
        cases.close(start(&[ARRAY, ty(detail, [a, 0, 0, 0, 0])]));
    }
    // The text starts with `int`, `int32`, `uint`, `uint32`, `float`, `float32`.
    let names = [[0, 3], [3, 3], [9, 3], [3, 5], [0, 4], [3, 4], [2, 4], [8, 4], [0, 0], [5, 0]];
    let customs = names.map(|[a, b]| ty(8, [a, b, 0, 0, 0]));
    let arrays = [[0, 3, 5], [1, 3, 5], [0, 4, 5], [0, 3, 6]].map(|[a, b, c]| ty(7, [a, b, c, 0, 0]));
    let keyed =
        [ty(7, [0, 3, 5, 0, 3]), ty(7, [0, 3, 5, 3, 5]), ty(6, [8, 0, 0, 0, 3]), ty(6, [0, 0, 0, 0, 3])];
    for group in [&customs[..], &arrays, &keyed, &[ADDRESS, ty(6, [5, 0, 0, 0, 0])]] {
        for (at, left) in group.iter().enumerate() {
            for right in &group[at..] {
                cases.close(start(&[*left, *right]));
                cases.close(start(&[*left, ty(6, [1, 0, 0, 0, 0]), *right]));
            }
        }
    }
    for behind in [NAME, FUNCTION] {
        let mut layout = start(&[]);
        let at = sample(&mut layout, behind);
        layout.records.extend([ARRAY, CUSTOM]);
        cases.at_home(layout, at);
    }
}

/// A chain of addresses down to type `inner`, the last one `depth` deep; `inner` is 1 deep.
fn chain(inner: u32, depth: u32) -> Vec<Record> {
    (0..depth - 1).map(|at| ty(6, [if at == 0 { inner } else { 11 + at }, 0, 0, 0, 0])).collect()
}

/// An expression `depth` deep over a leaf of a kind.
fn nested(layout: &mut Layout, leaf: u8, depth: u32) -> u32 {
    let leaf = sample(layout, leaf);
    (1..depth).fold(leaf, |inner, _| layout.push(UNARY, 0, &[inner], 0))
}

/// A tree with a target `depth` deep in a word; the types are a chain one shallower.
fn deep(kind: u8, word: usize, role: Role, depth: u32) -> Layout {
    let typed = matches!(role, Role::Type | Role::TypeOrNone);
    let mut layout = start(&chain(6, if typed { depth } else { depth - 1 }));
    let last = 12 + if typed { depth } else { depth - 1 } - 2;
    let item = |layout: &mut Layout| {
        let inner = nested(layout, INT, depth - 1);
        layout.push(if role == Role::Arguments { VALUE } else { CALL_STATEMENT }, 0, &[inner], 0)
    };
    let target = match role {
        Role::Type | Role::TypeOrNone => last,
        Role::Expression => nested(&mut layout, INT, depth),
        Role::Name => sample(&mut layout, NAME),
        Role::LoopVariable => holder(&mut layout, VARIABLE, 2, last),
        Role::Item => item(&mut layout),
        Role::Parameters => {
            let variable = holder(&mut layout, VARIABLE, 2, last);
            list(&mut layout, &[variable])
        }
        _ => {
            let item = item(&mut layout);
            list(&mut layout, &[item])
        }
    };
    let at = holder(&mut layout, kind, word, target);
    home(&mut layout, at);
    layout
}

fn accepted(layout: &Layout) -> bool {
    let case = whole(layout.clone());
    judge(&case.tree, &case.text, case.lens).is_ok()
}

/// Of trees by depth: the deepest that is accepted, and the one above it.
fn both_sides(cases: &mut Cases, make: &dyn Fn(u32) -> Layout) {
    if let Some(depth) = (DEEPEST / 2..DEEPEST + 1).rev().find(|depth| accepted(&make(*depth))) {
        cases.close(make(depth));
        cases.close(make(depth + 1));
    }
}

/// Nesting through each word that refers, and over each leaf.
fn nesting(cases: &mut Cases) {
    for kind in INT..=FUNCTION {
        for (word, role) in references(kind).filter(|(_, role)| *role != Role::Name) {
            both_sides(cases, &|depth| deep(kind, word, role, depth));
            cases.close(deep(kind, word, role, DEEPEST));
        }
    }
    for leaf in [INT, FLOAT, STR, BOOL, NAME, NULL, SIZE_OF, CALL] {
        both_sides(cases, &|depth| {
            let mut layout = start(&[]);
            let at = nested(&mut layout, leaf, depth);
            home(&mut layout, at);
            layout
        });
    }
}

/// Nesting of loops over Break and Continue, and of types.
fn nesting_of_others(cases: &mut Cases) {
    for leaf in [BREAK, CONTINUE] {
        both_sides(cases, &|depth| {
            let mut layout = start(&[]);
            let leaf = sample(&mut layout, leaf);
            let at = (1..depth).fold(leaf, |inner, _| {
                let body = list(&mut layout, &[inner]);
                holder(&mut layout, WHILE, 1, body)
            });
            home(&mut layout, at);
            layout
        });
    }
    // Addresses of types 7 and 9 stand among the first.
    for inner in [0, 1, 2, 3, 4, 5, 6, 8, 10, 11] {
        both_sides(cases, &|depth| start(&chain(inner, depth)));
    }
    for last in [ARRAY, CUSTOM] {
        both_sides(cases, &|depth| {
            let mut types = chain(if last.detail == 7 { 6 } else { 12 }, depth);
            if last.detail == 7 {
                types.push(ty(7, [10 + depth, 3, 0, 0, 0]));
            } else {
                types.iter_mut().skip(1).for_each(|record| record.words[0] += 1);
                types.insert(0, last);
            }
            start(&types)
        });
    }
}

/// Lengths and buffers.
fn rows(cases: &mut Cases) {
    let bare = whole(Layout::program(&[]));
    for length in [0, 1, 352, 383, 385, 386, 388, 392, 400, 415] {
        let mut tree = bare.tree.clone();
        tree.resize(length, 0);
        cases.0.push(Case { tree: tree.clone(), ..bare.clone() });
        cases.0.push(Case { tree, lens: [0; 7], ..bare.clone() });
    }
    let (mut layout, at) = good((WHILE, 0));
    for damaged in [false, true] {
        layout.records[at].detail = u8::from(damaged);
        let case = whole(layout.clone());
        for buffer in 0..7 {
            for change in [|len: usize| len - 1, |_| 0, |len| len + 1, |len| len + 40] {
                let mut lent = case.clone();
                lent.lens[buffer] = change(lent.lens[buffer]);
                cases.0.push(lent);
            }
            let mut lent = Case { lens: case.lens.map(|len| len + 9), ..case.clone() };
            lent.lens[buffer] = case.lens[buffer] - 1;
            cases.0.push(lent);
        }
    }
}

fn two_faults(cases: &mut Cases) {
    // A record that is too deep, and behind it one that nothing refers to.
    let mut layout = deep(UNARY, 0, Role::Expression, DEEPEST);
    sample(&mut layout, BREAK);
    cases.close(layout);
    for (lower, higher) in (0..3).flat_map(|lower| (0..3).map(move |higher| (lower, higher))) {
        let mut layout = start(&[]);
        for fault in [lower, higher] {
            match fault {
                0 => {
                    let at = layout.push(BREAK, 1, &[], 0);
                    home(&mut layout, at);
                }
                1 => _ = sample(&mut layout, DECLARE),
                _ => layout.records.push(ty(7, [0, layout.records.len() as u32, 0, 0, 0])),
            }
            sample(&mut layout, FUNCTION);
        }
        cases.keep(layout);
    }
}

/// All these trees, always the same.
pub fn all() -> &'static [Case] {
    static ALL: OnceLock<Vec<Case>> = OnceLock::new();
    ALL.get_or_init(|| {
        let mut cases = Cases::default();
        let fields = [kinds, details, fields, targets, items, counts, marks];
        let others = [first_types, equal_types, nesting, nesting_of_others, rows, two_faults];
        fields.iter().chain(&others).for_each(|family| family(&mut cases));
        cases.0
    })
}
