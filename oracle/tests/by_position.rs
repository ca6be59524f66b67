//! Calls with type arguments: a value goes to the parameter at its position among all arguments. Worked out by hand.

mod common;

use common::line;
use oracle::ast::Layout;
use oracle::ast::{Ar, Ex, Fun, St, Ty};
use oracle::convert::held;
use oracle::write::*;
use oracle::yardstick::{Reason, Yardstick};
use oracle::{generate, needed};

const BY_POSITION: (Yardstick, bool) = (Yardstick::Amended(Reason::TypeArguments), true);

fn half() -> Ar {
    value(float(0.5))
}

/// The program of an external function `put` with these parameters and of one that calls it, with a short Float for 가.
fn program(params: &[Ty], variadic: bool, args: Vec<Ar>) -> Vec<Fun> {
    let params: Vec<(&str, Ty)> = ["하나", "둘"].into_iter().zip(params.iter().cloned()).collect();
    let put = external("put", &params, None, variadic);
    vec![put, func("하다", &[("가", SINGLE)], None, vec![St::Call(call("put", args))])]
}

fn yardstick(functions: &[Fun]) -> (Yardstick, bool) {
    let layout = Layout::program(functions);
    let tree = layout.tree();
    let held = held(&tree, &layout.text, false, needed(tree.len())).unwrap();
    (held.by.unwrap(), held.otherwise.is_some())
}

#[test]
fn a_literal_takes_the_width_of_its_own_place() {
    let functions = program(&[LONG, SINGLE], false, vec![Ar::Type(LONG), half()]);
    let got = line(&functions);
    assert!(got.starts_with("!g0 () []  | g1 (5) [] Comment s0; Arg f1; Call g0"), "{got}");
    assert!(got.ends_with("0.5 | 0.5s"), "{got}");
    assert_eq!(yardstick(&functions), BY_POSITION);
}

#[test]
fn a_variable_of_its_own_width_is_not_cast() {
    let functions = program(&[DOUBLE, SINGLE], false, vec![Ar::Type(DOUBLE), value(name("가"))]);
    assert_eq!(line(&functions), "!g0 () []  | g1 (5) [] Comment s0; Arg v0; Call g0");
    assert_eq!(yardstick(&functions), BY_POSITION);
}

#[test]
fn beyond_the_parameters_a_value_is_long() {
    let functions = program(&[LONG], true, vec![Ar::Type(LONG), value(name("가"))]);
    assert_eq!(line(&functions), "!g0 () []  | g1 (5 4) [] Comment s0; Cast v1 v0; Arg v1; Call g0");
    assert_eq!(yardstick(&functions), BY_POSITION);
}

#[test]
fn a_type_behind_the_values_changes_nothing() {
    let functions = program(&[SINGLE, LONG], false, vec![half(), Ar::Type(LONG)]);
    let got = line(&functions);
    assert!(got.starts_with("!g0 () []  | g1 (5) [] Comment s0; Arg f1; Call g0"), "{got}");
    assert_eq!(yardstick(&functions), (Yardstick::Rust, false));
}

#[test]
fn a_cast_is_no_function_call() {
    let body = vec![init("나", Ex::Call(oracle::tree::CAST_VERB.to_vec(), vec![Ar::Type(SINGLE), half()]))];
    assert_eq!(yardstick(&[func("하다", &[], None, body)]), (Yardstick::Rust, false));
}

/// 'Overloads are chosen as before', but a shift that loses bits may be refused: with both reasons the amended copy has both amendments.
#[test]
fn both_reasons_meet() {
    let lost = || binary(binary(int(1), SHL, int(126)), SHL, int(2));
    let with = |ty: Ty| {
        let mut functions = program(&[LONG, SINGLE], false, vec![Ar::Type(LONG), half()]);
        functions.push(func("두다", &[], None, vec![declare("나", ty), init("나", lost())]));
        functions
    };
    let both = Yardstick::Amended(Reason::Both);
    let got = line(&with(LONG));
    assert!(got.starts_with("!g0 () []  | g1 (5) [] Comment s0; Arg f1; Call g0"), "{got}");
    assert_eq!(yardstick(&with(LONG)), (both, true));
    assert_eq!(line(&with(SHORT)), "13 s2");
    assert_eq!(yardstick(&with(SHORT)), (both, true));
}

/// Of the class `typed` most are held to the amended definition, and many are not Krc's.
#[test]
fn the_class_meets_the_amendment() {
    let (mut amended, mut changed) = (0, 0);
    for seed in 0..400 {
        let case = generate(seed, "typed");
        let held = held(&case.tree, &case.text, case.needs_main, case.lens).unwrap();
        amended += usize::from(held.by == Some(Yardstick::Amended(Reason::TypeArguments)));
        changed += usize::from(held.otherwise.is_some());
    }
    assert!(amended > 200 && changed > 60, "{amended} amended, {changed} changed");
}
