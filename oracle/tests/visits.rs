//! The seventh count: how many expression records the Rust, as amended, types at least once. The examples were worked out by hand.

use oracle::ast::{Ar, Ex, Fun, Layout, St, Ty};
use oracle::convert::{answer_by, held};
use oracle::program::Build;
use oracle::tree::*;
use oracle::visits::watched;
use oracle::write::*;
use oracle::yardstick::AMENDED;
use oracle::{Answer, Case, classes, generate, needed};

fn case_words(case: &Case) -> [u32; 8] {
    held(&case.tree, &case.text, case.needs_main, case.lens).unwrap().words()
}

fn words(functions: &[Fun]) -> [u32; 8] {
    let layout = Layout::program(functions);
    let (tree, text) = (layout.tree(), layout.text);
    let lens = needed(tree.len());
    case_words(&Case { tree, text, needs_main: false, lens, label: String::new() })
}

/// The seventh count of a function with this body, beside the variadic external `f`, which takes and gives a long Int.
fn visits(body: Vec<St>) -> u32 {
    let f = external("f", &[("수", LONG)], Some(LONG), true);
    let [number, .., visits] = words(&[f, func("하다", &[("가", LONG), ("참", Ty::Bool)], None, body)]);
    assert_eq!(number, 0);
    visits
}

fn f(inner: Ex) -> Ex {
    call_of("f", vec![inner])
}

#[test]
fn calls() {
    let sum = || binary(int(1), ADD, int(2));
    // A call as a statement is resolved, not typed; its values are.
    assert_eq!(visits(vec![St::Call(f(sum()))]), 3);
    assert_eq!(visits(vec![St::Call(f(f(int(1))))]), 2);
    assert_eq!(visits(vec![init("x", f(f(int(1))))]), 3);
    // Types are no expressions; values beyond the parameters are typed.
    let given = vec![value(int(1)), Ar::Type(LONG), value(sum())];
    assert_eq!(visits(vec![St::Call(call("f", given))]), 4);
    assert_eq!(visits(vec![init("x", cast(sum(), DOUBLE))]), 4);
}

#[test]
fn statements() {
    assert_eq!(visits(vec![]), 0);
    assert_eq!(visits(vec![declare("나", LONG)]), 0);
    // What is no call is typed whole, and a literal that is assigned is typed too.
    assert_eq!(visits(vec![St::Call(binary(int(1), ADD, int(2))), init("가", int(3))]), 4);
    assert_eq!(visits(vec![constant("나", name("가")), init("다", Ex::SizeOf(LONG))]), 2);
    let test = || binary(name("참"), AND, unary(NOT, name("참")));
    assert_eq!(visits(vec![St::If(test(), vec![init("가", int(1))], Some(vec![init("가", int(2))]))]), 6);
    assert_eq!(visits(vec![St::While(test(), vec![St::Call(f(int(1))), St::Break])]), 5);
    let bound = || binary(name("가"), ADD, int(2));
    assert_eq!(visits(vec![for_loop("수", Some(LONG), bound(), bound(), vec![init("가", name("수"))])]), 7);
}

#[test]
fn functions() {
    let both = binary(name("가"), AND, name("나"));
    let and = func("하다", &[("가", Ty::Bool), ("나", Ty::Bool)], Some(Ty::Bool), vec![St::Return(both)]);
    assert_eq!(words(std::slice::from_ref(&and)), [0, 1, 6, 3, 2, 0, 0, 3]);
    // Code after a Return, and the bodies of externals.
    let main = func("main", &[], Some(LONG), vec![St::Return(int(0)), init("가", int(1))]);
    let log = Fun { external: true, ..func("log", &[("가", LONG)], None, vec![St::Call(name("가"))]) };
    assert_eq!(words(&[and, main, log])[7], 6);
    assert_eq!(words(&[]), [0; 8]);
    // A refusal has no counts.
    assert_eq!(words(&[func("하다", &[], None, vec![init("가", int(1)), St::Break])])[4..], [0; 4]);
}

/// A sum with so many plus signs is visited once a record, and typed by Krc again at each level.
#[test]
fn deep_sums() {
    for signs in [1, 8, 40] {
        let sum = (0..signs).fold(int(1), |sum, _| binary(sum, ADD, int(1)));
        let layout = Layout::program(&[func("하다", &[], None, vec![init("x", sum)])]);
        let bytes = layout.tree();
        let tree = Tree::new(&bytes, &layout.text);
        let (answer, log) =
            watched(|| answer_by(&AMENDED, &Build::new(&tree), false, needed(bytes.len())).unwrap());
        assert_eq!(answer.number(), 0);
        assert_eq!(log.len(), 2 * signs + 1);
        let calls: u64 = log.values().sum();
        assert!(signs < 40 || calls > 10 * log.len() as u64, "{calls}");
    }
}

/// 'records of kinds 2 to 11, minus 2 for each function, minus the call statements whose A is a Call'.
fn by_formula(tree: &Tree) -> usize {
    let count = |wanted: &dyn Fn(&Record) -> bool| tree.records.iter().filter(|r| wanted(r)).count();
    let called = |r: &Record| r.kind == 18 && tree.at(r.a()).kind == 11;
    count(&|r| (2..=11).contains(&r.kind)) - 2 * count(&|r| r.kind == 25) - count(&called)
}

#[test]
fn generated_trees_keep_the_formula() {
    let mut converted = 0;
    for at in 0..4_000u64 {
        let class = classes()[at as usize % classes().len()];
        let case = generate(at / classes().len() as u64, class);
        let held = held(&case.tree, &case.text, case.needs_main, case.lens).unwrap();
        let Answer::Converted(_) = held.answer else {
            assert_eq!(held.visits, 0, "{}", case.label);
            continue;
        };
        converted += 1;
        let tree = Tree::new(&case.tree, &case.text);
        assert_eq!(held.visits as usize, by_formula(&tree), "{}", case.label);
    }
    assert!(converted > 1_000, "{converted}");
}
