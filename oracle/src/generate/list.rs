//! A list of cases for the judge alone: small trees, every rule broken at least once.

use super::rng::Rng;
use super::{Case, damage, generate, shapes, whole};
use crate::ast::{Layout, St, Ty};
use crate::judge::{MOST_RECORDS, MOST_RECORDS_ONCE, judge};
use crate::tree::*;
use crate::write::*;

fn named(label: &str, layout: Layout) -> Case {
    Case { label: label.to_string(), ..whole(layout) }
}

/// Cases of lengths and buffers.
fn bounds(cases: &mut Vec<Case>) {
    let mut rng = Rng::new(7);
    let edges = [MOST_RECORDS_ONCE, MOST_RECORDS].map(|most| [most - 1, most, most + 1]);
    for records in [&[12, 13, 14, 15, 17, 20, 40], edges.as_flattened()].concat() {
        cases.push(named("records", shapes::of_records(&mut rng, records)));
    }
    let twelve = whole(Layout::program(&[]));
    for length in [0, 1, 31, 32, 11 * 32, 12 * 32 - 1, 12 * 32 + 1, 12 * 32 + 16] {
        let mut tree = twelve.tree.clone();
        tree.resize(length, 0);
        cases.push(Case { tree, label: "length".to_string(), ..twelve.clone() });
    }
    for buffer in 0..7 {
        let mut short = whole(Layout::program(&damage::small_good(buffer)));
        short.lens[buffer] -= 1;
        cases.push(Case { label: format!("buffer {buffer}"), ..short.clone() });
        // Lengths come before buffers, and buffers before records.
        if buffer < 2 {
            short.tree[if buffer == 0 { 0 } else { 13 * 32 }] = 0;
            cases.push(short);
        }
    }
    // Scratch of the twelve types: 64 bytes a record, as long as was enough once, one byte too few, and enough.
    for scratch in [768, 863, 864] {
        let mut case = twelve.clone();
        case.lens[6] = scratch;
        cases.push(Case { label: format!("scratch {scratch}"), ..case });
    }
    cases.push(Case { lens: [0; 7], tree: vec![0; 33], text: vec![], ..twelve.clone() });
    cases.push(Case { lens: twelve.lens.map(|len| len + 1), ..twelve });
}

/// Trees one below, at and one above the deepest nesting, by types and by expressions.
fn nesting(cases: &mut Vec<Case>) {
    for depth in [63, 64, 65, 66] {
        let ty = (1..depth).fold(LONG, |ty, _| address(ty));
        let mut types = Layout { extra_types: vec![ty], ..Layout::default() };
        types.add(&[]);
        cases.push(named("deep type", types));
        // The literal is 1 deep, each sign one more, the statement and the function one each.
        let value = (3..depth).fold(int(1), |expr, _| unary(NEG, expr));
        cases.push(named("deep body", Layout::program(&[func("가다", &[], None, vec![St::Return(value)])])));
    }
}

/// A change to each field that breaks one rule, over small good trees.
fn rules(cases: &mut Vec<Case>, rng: &mut Rng, count: usize) {
    for at in 0..count {
        let mut layout = Layout::program(&damage::small_good(at));
        if at % 16 >= 8 {
            layout = Layout { interleave: true, share_texts: true, ..Layout::default() };
            layout.add(&damage::small_good(at));
        }
        let records = layout.records.len();
        let (record, field) =
            (12 + rng.below(records - 12), [0, 1, 2, 3, 4, 5, 6, 7, 8, 8, 3, 4, 5][at % 13]);
        let record = if at % 5 == 0 { rng.below(records) } else { record };
        let variant = rng.below(damage::VARIANTS);
        damage::damage(&mut layout, (record * damage::FIELDS + field) * damage::VARIANTS + variant);
        cases.push(named("rule", layout));
    }
}

/// A good tree with the last record of one kind changed.
fn change(functions: usize, kind: u8, edit: &dyn Fn(&mut Record)) -> Case {
    let mut layout = Layout::program(&damage::small_good(functions));
    let record = layout.records.iter_mut().rfind(|record| record.kind == kind);
    edit(record.expect("the program has a record of that kind"));
    named("rule by hand", layout)
}

/// The rules of 'The call', each broken by hand.
fn by_hand(cases: &mut Vec<Case>) {
    let outside = u32::MAX - 1;
    cases.push(change(0, TYPE, &|r| r.words[0] = 5));
    cases.push(change(0, TYPE, &|r| r.words[4] = outside));
    cases.push(change(5, TYPE, &|r| r.detail = 6));
    cases.push(change(3, VARIABLE, &|r| r.words[2] = NONE));
    cases.push(change(0, VARIABLE, &|r| r.words[2] = NONE));
    cases.push(change(0, VARIABLE, &|r| r.words[2] = 12));
    cases.push(change(0, FUNCTION, &|r| r.detail = 0));
    cases.push(change(0, FUNCTION, &|r| r.detail = 8));
    cases.push(change(0, FUNCTION, &|r| r.words[4] = NONE));
    cases.push(change(0, FUNCTION, &|r| r.words[2] = r.words[4]));
    cases.push(change(0, FUNCTION, &|r| r.words[3] = NONE));
    cases.push(change(0, FUNCTION, &|r| r.words.swap(0, 1)));
    cases.push(change(1, IF, &|r| r.detail = 0));
    cases.push(change(1, IF, &|r| r.words[1] = r.words[2]));
    cases.push(change(1, IF, &|r| r.words[2] = NONE));
    cases.push(change(2, WHILE, &|r| r.words[1] = NONE));
    cases.push(change(3, FOR, &|r| r.words.swap(0, 1)));
    cases.push(change(4, LIST, &|r| r.words[0] = NONE));
    cases.push(change(4, LIST, &|r| r.words[1] = r.words[0]));
    cases.push(change(4, TYPE_ARGUMENT, &|r| r.words[0] = 12));
    cases.push(change(4, VALUE, &|r| (r.kind, r.words[0]) = (TYPE_ARGUMENT, 4)));
    cases.push(change(6, SIZE_OF, &|r| r.words[0] = NONE));
    cases.push(change(6, FLOAT, &|r| (r.start, r.end) = (NONE, 3)));
    cases.push(change(0, BINARY, &|r| r.detail = 18));
    cases.push(change(0, BINARY, &|r| r.words[1] = r.words[0]));
    cases.push(change(0, NAME, &|r| r.words[0] = outside));
    cases.push(change(0, NAME, &|r| r.words[1] = 0));
    cases.push(change(0, RETURN, &|r| r.pad[0] = 1));
    cases.push(change(0, RETURN, &|r| r.words[4] = 1));
    cases.push(change(0, RETURN, &|r| r.kind = 26));
    cases.push(change(0, UNARY, &|r| r.words[0] += 1));
    cases.push(change(2, CONTINUE, &|r| (r.kind, r.words[0]) = (VALUE, 16)));
    cases.push(change(4, CALL, &|r| r.words[1] = outside));
}

/// Records added to or changed among the types, and records that nothing refers to.
fn types_by_hand(cases: &mut Vec<Case>) {
    let with = |types: Vec<Ty>, edit: &dyn Fn(&mut Layout)| {
        let mut layout = Layout { extra_types: types, ..Layout::default() };
        layout.add(&damage::small_good(0));
        edit(&mut layout);
        named("types by hand", layout)
    };
    let arrays = || vec![array(Ty::Byte, 0), array(Ty::Byte, 1 << 32)];
    cases.push(with(arrays(), &|_| {}));
    cases.push(with(arrays(), &|l| l.records[13].words[2] = 0));
    cases.push(with(arrays(), &|l| l.records[13].words[0] = 13));
    cases.push(with(vec![custom("aa"), custom("ba")], &|l| {
        l.records[12].words[1] = 1;
        l.records[13].words[0] += 1;
        l.records[13].words[1] = 1;
    }));
    cases.push(with(vec![custom(""), custom("a")], &|l| l.records[13].words[1] = 0));
    cases.push(with(vec![address(LONG)], &|l| l.records[12].words[0] = 7));
    cases.push(with(vec![address(LONG)], &|l| l.records[12].detail = 22));
    cases.push(with(vec![], &|l| l.records.push(Record::new(TYPE, 7, [0; 5]))));
    cases.push(with(vec![], &|l| l.records.push(Record::new(BREAK, 0, [0; 5]))));
    cases.push(with(vec![], &|l| l.records.push(Record::new(LIST, 0, [22, NONE, 0, 0, 0]))));
    cases.push(with(vec![], &|l| l.records.swap(4, 5)));
    cases.push(with(vec![], &|l| l.records[4] = l.records[16]));
    for (offset, length) in [(0, 0), (0, 1), (1, 0), (NONE, NONE)] {
        cases.push(with(vec![], &|l| {
            let end = l.text.len() as u32;
            l.records[13].words[..2].copy_from_slice(&[end.wrapping_add(offset), length]);
        }));
    }
}

/// The cases of the list, at most about `count` beside the fixed ones.
pub fn cases(seed: u64, count: usize) -> Vec<Case> {
    let mut cases = Vec::new();
    bounds(&mut cases);
    nesting(&mut cases);
    by_hand(&mut cases);
    types_by_hand(&mut cases);
    let fixed = cases.len();
    let mut rng = Rng::new(seed);
    let random = count.saturating_sub(fixed);
    rules(&mut cases, &mut rng, random * 3 / 4);
    while cases.len() < count {
        let case = generate(rng.draw(), "bytes");
        if case.tree.len() <= 40 * RECORD_BYTES {
            cases.push(case);
        }
    }
    cases
}

/// The list as bytes: words of 32 bits (tree length, text length, the seven lengths, number, place,
/// span), then the tree and the text of each case.
pub fn bytes(cases: &[Case]) -> Vec<u8> {
    let mut list = Vec::new();
    for case in cases {
        let mut words = vec![case.tree.len() as u32, case.text.len() as u32];
        words.extend(case.lens.iter().map(|len| *len as u32));
        match judge(&case.tree, &case.text, case.lens) {
            Ok(()) => words.extend([0; 4]),
            Err(refusal) => words.extend([refusal.number, refusal.place, refusal.start, refusal.end]),
        }
        for word in words {
            list.extend(word.to_le_bytes());
        }
        list.extend(&case.tree);
        list.extend(&case.text);
    }
    list
}
