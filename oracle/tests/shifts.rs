//! Left shifts that lose bits: what the unmodified Rust answers, what the amended definition does, and which of them a tree is held to.

#[allow(dead_code)]
mod common;

use common::answer_line;
use oracle::ask::{Questions, judged};
use oracle::ast::{Ex, Fun, Layout, St, Ty};
use oracle::convert::{answer_by, held};
use oracle::generate::shifts;
use oracle::program::Build;
use oracle::tree::{CALL_STATEMENT, Tree};
use oracle::write::*;
use oracle::yardstick::{AMENDED, RUST, Reason, Yardstick, lost_shifts};
use oracle::{Case, convert, generate, needed};

/// The line of the Rust, that of the amended definition, and how many shifts lose bits; the oracle says the one that the tree is held to.
fn both(functions: &[Fun]) -> (String, String, usize) {
    let layout = Layout::program(functions);
    let bytes = layout.tree();
    let tree = judged(&bytes, &layout.text).unwrap();
    let (build, lens) = (Build::new(&tree), needed(bytes.len()));
    let by = |krc| answer_line(&tree, answer_by(krc, &build, false, lens).unwrap());
    let (rust, amended, lost) = (by(&RUST), by(&AMENDED), lost_shifts(&build).len());
    let said = answer_line(&tree, convert(&bytes, &layout.text, false, lens));
    assert_eq!(said, if lost > 0 { &amended } else { &rust }[..]);
    (rust, amended, lost)
}

fn shl(value: Ex, count: i64) -> Ex {
    binary(value, SHL, int(count))
}

fn minus_one() -> Ex {
    unary(NEG, int(1))
}

/// `both`, with a converted tree said in a word, when a variable of type `ty` gets the value.
fn gets(ty: Ty, value: Ex) -> (String, String, usize) {
    let body = vec![declare("나", ty), init("나", value)];
    let (rust, amended, lost) = both(&[func("하다", &[], None, body)]);
    let short = |line: String| if line.starts_with('g') { "converts".to_string() } else { line };
    (short(rust), short(amended), lost)
}

fn said(rust: &str, amended: &str, lost: usize) -> (String, String, usize) {
    (rust.to_string(), amended.to_string(), lost)
}

#[test]
fn a_short_gets_a_lost_shift() {
    assert_eq!(gets(SHORT, shl(int(3), 127)), said("16 e0", "13 s1", 1));
    assert_eq!(gets(SHORT, shl(int(1), 127)), said("16 e0", "13 s1", 1));
    assert_eq!(gets(SHORT, shl(shl(int(1), 126), 2)), said("converts", "13 s1", 1));
    assert_eq!(gets(SHORT, binary(shl(int(1), 127), SHR, int(127))), said("converts", "13 s1", 1));
    // The inner shift loses, and with it the one around it.
    assert_eq!(gets(SHORT, shl(shl(int(3), 127), 1)), said("converts", "13 s1", 2));
    // As a count: 1 << 0 in the Rust.
    assert_eq!(gets(SHORT, binary(int(1), SHL, shl(int(2), 127))), said("converts", "13 s1", 2));
}

#[test]
fn a_short_gets_a_shift_that_loses_nothing() {
    assert_eq!(gets(SHORT, shl(minus_one(), 127)), said("16 e0", "16 e0", 0));
    assert_eq!(gets(SHORT, binary(shl(minus_one(), 127), DIV, minus_one())), said("13 s1", "13 s1", 0));
    assert_eq!(gets(SHORT, shl(int(0), 127)), said("converts", "converts", 0));
    assert_eq!(gets(SHORT, shl(int(1), 30)), said("converts", "converts", 0));
    assert_eq!(gets(SHORT, shl(int(1), 31)), said("16 e0", "16 e0", 0));
    assert_eq!(gets(SHORT, shl(int(1), 126)), said("16 e0", "16 e0", 0));
    assert_eq!(gets(SHORT, shl(int(1), 128)), said("13 s1", "13 s1", 0));
    assert_eq!(gets(SHORT, shl(int(1), -1)), said("13 s1", "13 s1", 0));
    // Right shifts lose bits freely.
    assert_eq!(gets(SHORT, binary(int(5), SHR, int(2))), said("converts", "converts", 0));
}

#[test]
fn equal_types_never_look() {
    let body = || vec![declare("나", LONG), init("나", shl(int(3), 127))];
    let line = "g0 (0 0) [] Comment s0; Copy v0 0; Comment s1; Binary v1 3 << 127; Copy v0 v1".to_string();
    assert_eq!(both(&[func("하다", &[], None, body())]), (line.clone(), line, 1));
}

/// Right side no longer takes the left's type, so the left takes the right's.
#[test]
fn the_other_side_decides() {
    let five = || Ex::Int(5, true, false);
    let body = vec![init("나", binary(five(), ADD, shl(shl(int(1), 126), 2)))];
    let computed = "Comment s0; Binary v0 1 << 126; Binary v1 v0 << 2;";
    let (rust, amended, lost) = both(&[func("하다", &[], None, body)]);
    assert_eq!(rust, format!("g0 (0 0 1 1) [] {computed} Binary v2 5s + v1; Copy v3 v2"));
    assert_eq!(amended, format!("g0 (0 0 0 0) [] {computed} Binary v2 5 + v1; Copy v3 v2"));
    assert_eq!(lost, 1);
}

#[test]
fn a_refused_return_converts() {
    let value = binary(Ex::Int(0, true, false), REM, shl(shl(int(64), 127), 125));
    let (rust, amended, lost) = both(&[func("하다", &[], Some(LONG), vec![St::Return(value)])]);
    assert_eq!((rust.as_str(), lost), ("12 s0", 2));
    let line =
        "g0 (0 0 0) [] Comment s0; Binary v0 64 << 127; Binary v1 v0 << 125; Binary v2 0 % v1; Return v2";
    assert_eq!(amended, line);
}

#[test]
fn other_places() {
    let zero = || shl(shl(int(1), 126), 2);
    let number = |functions: &[Fun]| {
        let (rust, amended, lost) = both(functions);
        let first = |line: String| line.split(' ').next().unwrap().to_string();
        (first(rust), first(amended), lost)
    };
    let one = |ret: Option<Ty>, body: Vec<St>| number(&[func("하다", &[("짧", SHORT)], ret, body)]);
    assert_eq!(one(Some(SHORT), vec![St::Return(zero())]), said("g0", "12", 1));
    let until = for_loop("수", Some(SHORT), int(0), zero(), vec![]);
    assert_eq!(one(None, vec![until]), said("g0", "19", 1));
    let beside = init("나", binary(name("짧"), ADD, zero()));
    assert_eq!(one(None, vec![beside]), said("g0", "14", 1));
    let takes = |ty: Ty| declared("쓰다", &[("값", ty)], None, false);
    let user = || func("하다", &[], None, vec![St::Call(call_of("쓰다", vec![zero()]))]);
    assert_eq!(number(&[takes(SHORT), user()]), said("!g0", "5", 1));
    assert_eq!(number(&[takes(SHORT), takes(ULONG), user()]), said("15", "5", 1));
    // Typed only, and behind a refusal: the tree loses bits all the same.
    assert_eq!(one(None, vec![St::Call(zero())]), said("g0", "g0", 1));
    assert_eq!(one(None, vec![init("짧", Ex::Bool(true)), St::Call(zero())]), said("13", "13", 1));
}

#[test]
fn questions_answer_as_amended() {
    let asked =
        vec![St::Call(shl(shl(int(1), 126), 2)), St::Call(shl(minus_one(), 127)), St::Call(shl(int(5), 2))];
    let layout = Layout::program(&[func("묻다", &[], None, asked)]);
    let bytes = layout.tree();
    let tree = judged(&bytes, &layout.text).unwrap();
    let asked: Vec<u32> = tree.of_kind(CALL_STATEMENT).map(|statement| tree.at(statement).a()).collect();
    let questions = Questions::new(&tree);
    let folds: Vec<Option<i128>> = asked.iter().map(|expr| questions.int_value(*expr)).collect();
    assert_eq!(folds, [None, Some(i128::MIN), Some(20)]);
    assert_eq!(
        asked.iter().map(|expr| questions.fits(*expr, 0, 1)).collect::<Vec<_>>(),
        [false, false, true]
    );
    let out = asked.iter().map(|expr| questions.range_error(*expr, 0, 1)).collect::<Vec<_>>();
    assert_eq!(out, [false, true, false]);
    assert!(questions.fits(asked[0], 0, 0));
    assert_eq!((RUST.int_value)(&Build::new(&tree).expr(asked[0])), Some(0));
}

/// The amended fold, written from the request's sentence with arithmetic of its own: value times 2 to the count, in 128 bits.
fn folds(value: i64, count: i64) -> Option<i128> {
    (0..128).contains(&count).then(|| (0..count).try_fold(i128::from(value), |v, _| v.checked_mul(2)))?
}

#[test]
fn a_shift_folds_where_the_product_does() {
    for value in [0, 1, -1, 2, -2, 3, -3, 64, 1 << 30, 1 << 62, i64::MAX, i64::MIN, i64::MIN + 1] {
        for count in [-1, 0, 1, 30, 31, 62, 63, 64, 65, 66, 125, 126, 127, 128, 129, 1 << 32, i64::MIN] {
            let layout = Layout::program(&[func("하다", &[], None, vec![St::Call(shl(int(value), count))])]);
            let bytes = layout.tree();
            let tree = judged(&bytes, &layout.text).unwrap();
            let expr = tree.at(tree.of_kind(CALL_STATEMENT).next().unwrap()).a();
            let expr = Build::new(&tree).expr(expr);
            assert_eq!((AMENDED.int_value)(&expr), folds(value, count), "{value} << {count}");
        }
    }
}

fn rust_and_amended(case: &Case) -> [oracle::Answer; 2] {
    let tree = Tree::new(&case.tree, &case.text);
    let build = Build::new(&tree);
    [&RUST, &AMENDED].map(|krc| answer_by(krc, &build, case.needs_main, case.lens).unwrap())
}

/// Where no shift loses bits the amended copy has nothing to say of its own; where one does, it often has.
#[test]
fn the_walk_finds_every_tree_that_differs() {
    let mut otherwise = 0;
    for seed in 0..4000 {
        let case = generate(seed / 4, ["shifts", "integers", "near", "program"][seed as usize % 4]);
        let held = held(&case.tree, &case.text, case.needs_main, case.lens).unwrap();
        let [rust, amended] = rust_and_amended(&case);
        match held.by {
            Some(Yardstick::Rust) => assert!(rust == amended && held.answer == rust, "{}", case.label),
            Some(Yardstick::Amended(_)) => {
                assert!(held.answer == amended, "{}", case.label);
                otherwise += u32::from(rust != amended);
            }
            None => panic!("{}: refused before conversion", case.label),
        }
    }
    assert!(otherwise > 200, "{otherwise}");
}

/// Each answer that a shift can bring about, in trees that lose bits and in trees that do not.
#[test]
fn the_class_has_each_answer_twice() {
    let mut counts = std::collections::BTreeMap::new();
    let mut amended = 0;
    for seed in 0..2000 {
        let case = generate(seed, "shifts");
        let held = held(&case.tree, &case.text, case.needs_main, case.lens).unwrap();
        let lost = held.by == Some(Yardstick::Amended(Reason::LostBits));
        *counts.entry((held.answer.number(), lost)).or_insert(0) += 1;
        amended += u32::from(lost);
    }
    assert!((900..1100).contains(&amended), "{amended}");
    for number in [0, 5, 12, 13, 14, 15, 16, 19] {
        for lost in [false, true] {
            let count = counts.get(&(number, lost)).copied().unwrap_or(0);
            assert!(count >= 10, "{number}, {lost}: {counts:?}");
        }
    }
}

/// At the limits one shift more loses bits, except with 0 and -1, and the answer tells.
#[test]
fn limits_tell() {
    let programs = shifts::limits();
    for (at, pair) in programs.chunks(2).enumerate() {
        let lost = at % 2 == 1 && at >= 4;
        for functions in pair {
            let (rust, amended, count) = both(functions);
            assert_eq!((count > 0, rust != amended), (lost, lost), "{functions:?}");
        }
    }
}
