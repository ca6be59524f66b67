//! Trees that break one rule each; number and place were worked out by hand from document 01.

use oracle::ast::{Layout, St, Ty};
use oracle::generate::damage::small_good;
use oracle::tree::{BREAK, LIST, NONE, Record, TYPE, UNARY};
use oracle::write::*;
use oracle::{judge, needed};

/// Number and place, (0, 0) where accepted.
fn answer(layout: &Layout) -> (u32, u32) {
    let tree = layout.tree();
    let lens = needed(tree.len());
    judge(&tree, &layout.text, lens).err().map_or((0, 0), |refusal| (refusal.number, refusal.place))
}

/// Twelve types, 12 name, 13 mangled name, 14 parameter, 15 its cell, 16 Name, 17 Name, 18 Not of 17,
/// 19 And of 16 and 18, 20 Return, 21 its cell, 22 the function.
fn base() -> Layout {
    let layout = Layout::program(&small_good(0));
    let kinds: Vec<u8> = layout.records[12..].iter().map(|record| record.kind).collect();
    assert_eq!(kinds, [6, 6, 24, 12, 6, 6, 9, 10, 17, 12, 25]);
    layout
}

fn edited(edit: impl FnOnce(&mut Vec<Record>)) -> (u32, u32) {
    let mut layout = base();
    edit(&mut layout.records);
    answer(&layout)
}

#[test]
fn good_trees() {
    for which in 0..8 {
        assert_eq!(answer(&Layout::program(&small_good(which))), (0, 0));
    }
    assert_eq!(answer(&Layout::program(&[])), (0, 0));
    assert_eq!(edited(|r| r[22].words[3] = NONE), (0, 0));
    assert_eq!(edited(|r| (r[20].start, r[20].end) = (NONE, 1)), (0, 0));
}

#[test]
fn kinds_details_and_unused_parts() {
    assert_eq!(edited(|r| r[16].kind = 0), (24, 16));
    assert_eq!(edited(|r| r[16].kind = 26), (24, 16));
    assert_eq!(edited(|r| r[22].detail = 12), (24, 22));
    assert_eq!(edited(|r| r[19].detail = 18), (24, 19));
    assert_eq!(edited(|r| r[18].detail = 3), (24, 18));
    assert_eq!(edited(|r| r[18].pad[1] = 1), (24, 18));
    assert_eq!(edited(|r| r[19].words[2] = 1), (24, 19));
    assert_eq!(edited(|r| r[3].words[0] = 1), (24, 3));
    assert_eq!(edited(|r| r[21].words[4] = NONE), (24, 21));
}

#[test]
fn references() {
    // Twice referred to, and left alone: the lower one is named.
    assert_eq!(edited(|r| r[19].words[1] = 16), (24, 16));
    assert_eq!(edited(|r| r[20].words[0] = 17), (24, 17));
    assert_eq!(edited(|r| r[20].words[0] = NONE), (24, 19));
    assert_eq!(edited(|r| r[20].words[0] = 20), (24, 19));
    // A reference of a wrong kind counts, so the name is referred to twice.
    assert_eq!(edited(|r| r[14].words[2] = 12), (24, 12));
    // A record of unknown kind refers to nothing.
    assert_eq!(edited(|r| r[19].kind = 99), (24, 16));
    // One of an unknown operator still refers.
    assert_eq!(edited(|r| r[19].detail = 99), (24, 19));
    assert_eq!(edited(|r| r.push(Record::new(BREAK, 0, [0; 5]))), (24, 23));
    assert_eq!(edited(|r| r.push(Record::new(UNARY, 0, [22, 0, 0, 0, 0]))), (24, 23));
    assert_eq!(edited(|r| r.push(Record::new(LIST, 0, [22, NONE, 0, 0, 0]))), (24, 23));
}

#[test]
fn lists() {
    assert_eq!(edited(|r| r[14].words[2] = NONE), (24, 22));
    assert_eq!(edited(|r| r[22].words.swap(2, 4)), (24, 22));
    assert_eq!(edited(|r| r[22].words[4] = NONE), (24, 21));
    assert_eq!(edited(|r| r[22].words[2] = 14), (24, 14));
    assert_eq!(edited(|r| r[21].words[0] = NONE), (24, 20));
    assert_eq!(edited(|r| r[21].words[1] = 21), (24, 21));
    // The item of a cell is an expression: its opener is at fault, after the statement left alone.
    assert_eq!(edited(|r| (r[21].words[0], r[20].words[0]) = (19, 19)), (24, 19));
}

#[test]
fn marks() {
    assert_eq!(edited(|r| r[22].detail = 3), (24, 22));
    let mut layout = Layout::program(&small_good(1));
    let at = layout.records.iter().position(|record| record.kind == 19).unwrap();
    layout.records[at].detail = 0;
    assert_eq!(answer(&layout), (24, at as u32));
    layout.records[at].detail = 1;
    layout.records[at].words[2] = NONE;
    assert_eq!(answer(&layout), (24, at as u32 - 1));
}

#[test]
fn texts() {
    let end = base().text.len() as u32;
    assert_eq!(edited(|r| r[12].words[..2].copy_from_slice(&[end, 0])), (0, 0));
    assert_eq!(edited(|r| r[12].words[..2].copy_from_slice(&[end, 1])), (24, 12));
    assert_eq!(edited(|r| r[12].words[..2].copy_from_slice(&[end + 1, 0])), (24, 12));
    assert_eq!(edited(|r| r[12].words[..2].copy_from_slice(&[NONE, NONE])), (24, 12));
    assert_eq!(edited(|r| r[11].words[3..].copy_from_slice(&[0, end + 1])), (24, 11));
}

#[test]
fn types() {
    assert_eq!(edited(|r| r[5].detail = 2), (24, 5));
    assert_eq!(edited(|r| r[11].words[0] = 8), (24, 11));
    assert_eq!(edited(|r| r[1].detail = 1), (24, 1));
    assert_eq!(edited(|r| r.push(Record::new(TYPE, 7, [0; 5]))), (24, 23));
    let with = |types: Vec<Ty>, edit: &dyn Fn(&mut Vec<Record>)| {
        let mut layout = Layout { extra_types: types, ..Layout::default() };
        layout.add(&[]);
        edit(&mut layout.records);
        answer(&layout)
    };
    let arrays = || vec![array(Ty::Byte, 0), array(Ty::Byte, 1 << 32)];
    assert_eq!(with(arrays(), &|_| {}), (0, 0));
    assert_eq!(with(arrays(), &|r| r[13].words[2] = 0), (24, 13));
    let names = || vec![custom("aa"), custom("ba")];
    assert_eq!(with(names(), &|_| {}), (0, 0));
    // Both now name the byte `a`, from two places.
    let shorten = |r: &mut Vec<Record>| {
        r[12].words[1] = 1;
        (r[13].words[0], r[13].words[1]) = (r[13].words[0] + 1, 1);
    };
    assert_eq!(with(names(), &shorten), (24, 13));
    assert_eq!(with(vec![address(LONG)], &|r| r[12].words[0] = 12), (24, 12));
    assert_eq!(with(vec![address(LONG)], &|r| r[12].detail = 22), (24, 12));
    assert_eq!(with(vec![address(LONG)], &|r| r[12].words[0] = 7), (24, 12));
}

#[test]
fn nesting() {
    let chain = |depth: usize| {
        let ty = (1..depth).fold(LONG, |ty, _| address(ty));
        let mut layout = Layout { extra_types: vec![ty], ..Layout::default() };
        layout.add(&[]);
        answer(&layout)
    };
    assert_eq!(chain(64), (0, 0));
    // Record 12 is 2 deep, so record 75 is 65 deep.
    assert_eq!(chain(65), (25, 75));
    assert_eq!(chain(70), (25, 75));
    let body = |depth: usize| {
        let value = (3..depth).fold(int(1), |expr, _| unary(NEG, expr));
        answer(&Layout::program(&[func("가다", &[], None, vec![St::Return(value)])]))
    };
    assert_eq!(body(64), (0, 0));
    // 12 and 13 names, 14 to 76 the 63 expressions, 77 the Return, 78 its cell, 79 the function.
    assert_eq!(body(65), (25, 79));
    assert_eq!(body(66), (25, 78));
    let list = answer(&Layout::program(&[func("가다", &[], None, vec![St::Break; 200])]));
    assert_eq!(list, (0, 0));
}

#[test]
fn lengths_and_buffers() {
    let (tree, text) = (base().tree(), base().text);
    let n = tree.len() / 32;
    let exact = [320, 12, 24, 32, 8, 32, 72].map(|bytes| bytes * n);
    let number = |tree: &[u8], lens| judge(tree, &text, lens).err().map_or((0, 0), |r| (r.number, r.place));
    assert_eq!(number(&tree, exact), (0, 0));
    for buffer in 0..7 {
        let mut short = exact;
        short[buffer] -= 1;
        assert_eq!(number(&tree, short), (26, NONE));
    }
    let twelve = [320, 12, 24, 32, 8, 32].map(|bytes| bytes * 12);
    for (scratch, want) in [(768, 26), (863, 26), (864, 0)] {
        let [a, b, c, d, e, f] = twelve;
        assert_eq!(number(&tree[..12 * 32], [a, b, c, d, e, f, scratch]).0, want);
    }
    for length in [0, 31, 32, 11 * 32, tree.len() - 1] {
        assert_eq!(number(&tree[..length], [0; 7]), (24, NONE));
    }
    let mut bad = tree.clone();
    bad[0] = 0;
    assert_eq!(number(&bad, [0; 7]), (26, NONE));
    assert_eq!(number(&bad, exact), (24, 0));
    let long = vec![0; 16_385 * 32];
    assert_eq!(number(&long, needed(long.len())), (24, NONE));
    assert_eq!(number(&long[32..], needed(long.len())), (24, 0));
}
