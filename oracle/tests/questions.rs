//! Single questions, answered by hand from Krc's text.

use oracle::ask::{Questions, Reply, judged};
use oracle::ast::{Ar, Ex, Fun, Layout, St, Ty};
use oracle::tree::{CALL_STATEMENT, FUNCTION};
use oracle::write::*;

/// Asks about the expression of the only call statement, over the parameters of the last function.
fn ask(
    functions: Vec<Fun>,
    params: &[(&str, Ty)],
    expr: Ex,
    question: impl Fn(&Questions, u32, u32) -> Reply,
) -> Reply {
    let mut functions = functions;
    functions.push(func("묻다", params, None, vec![St::Call(expr)]));
    let layout = Layout::program(&functions);
    let bytes = layout.tree();
    let tree = judged(&bytes, &layout.text).unwrap();
    let scope = tree.of_kind(FUNCTION).last().unwrap();
    let expr = tree.at(tree.of_kind(CALL_STATEMENT).last().unwrap()).a();
    question(&Questions::new(&tree), scope, expr)
}

fn get_type(params: &[(&str, Ty)], expr: Ex) -> Reply {
    ask(Vec::new(), params, expr, |questions, scope, expr| questions.get_type(scope, expr))
}

#[test]
fn types() {
    assert_eq!(get_type(&[], int(1)), Reply::Type(0));
    assert_eq!(get_type(&[], string("글")), Reply::Type(10));
    assert_eq!(get_type(&[], Ex::SizeOf(custom("꼴"))), Reply::Type(2));
    assert_eq!(get_type(&[("가", SHORT)], binary(name("가"), ADD, int(1))), Reply::Type(1));
    assert_eq!(get_type(&[("가", SHORT)], binary(int(1), LT, name("가"))), Reply::Type(6));
    assert_eq!(get_type(&[], cast(int(1), SINGLE)), Reply::Type(5));
    let layout_error = get_type(&[("가", SHORT), ("가", SHORT)], int(1));
    assert!(matches!(layout_error, Reply::Error { number: 3, .. }));
    assert!(matches!(get_type(&[], name("가")), Reply::Error { number: 4, .. }));
    assert!(matches!(
        get_type(&[("가", SHORT)], binary(name("가"), ADD, int(1 << 40))),
        Reply::Error { number: 16, .. }
    ));
}

#[test]
fn calls() {
    let resolve = |functions: Vec<Fun>, expr: Ex| {
        ask(functions, &[("가", SHORT)], expr, |questions, scope, expr| questions.resolve_call(scope, expr))
    };
    let short = || declared("쓰다", &[("가", SHORT)], None, false);
    let unsigned = || declared("쓰다", &[("가", USHORT)], None, false);
    // 12 and 13 names, 14 the parameter, 15 its cell, 16 the function.
    assert_eq!(resolve(vec![short()], call_of("쓰다", vec![int(1)])), Reply::Function(16));
    assert_eq!(resolve(vec![unsigned(), short()], call_of("쓰다", vec![name("가")])), Reply::Function(21));
    let both = resolve(vec![unsigned(), short()], call_of("쓰다", vec![int(1)]));
    assert!(matches!(both, Reply::Error { number: 15, .. }));
    let none = resolve(vec![short()], call_of("쓰다", vec![]));
    assert!(matches!(none, Reply::Error { number: 5, .. }));
    assert_eq!(resolve(vec![], cast(int(1), Ty::Bool)), Reply::Cast(6));
    assert_eq!(resolve(vec![], call("바꾸다", vec![Ar::Type(Ty::Null)])), Reply::Cast(9));
    assert!(matches!(resolve(vec![], cast(int(1), Ty::Null)), Reply::Error { number: 17, .. }));
}

#[test]
fn folds_and_fits() {
    let layout = Layout::program(&[func(
        "묻다",
        &[],
        None,
        vec![St::Call(unary(NEG, int(1 << 31))), St::Call(float(1.5))],
    )]);
    let bytes = layout.tree();
    let tree = judged(&bytes, &layout.text).unwrap();
    let asked: Vec<u32> = tree.of_kind(CALL_STATEMENT).map(|statement| tree.at(statement).a()).collect();
    let questions = Questions::new(&tree);
    assert_eq!(questions.int_value(asked[0]), Some(-(1 << 31)));
    assert_eq!(questions.int_value(asked[1]), None);
    assert_eq!(questions.float_value(asked[1]), Some(1.5));
    assert!(questions.fits(asked[0], 0, 1) && !questions.range_error(asked[0], 0, 1));
    assert!(!questions.fits(asked[0], 0, 2) && questions.range_error(asked[0], 0, 2));
    assert!(!questions.fits(asked[0], 0, 6) && !questions.range_error(asked[0], 0, 6));
    assert!(questions.fits(asked[1], 4, 5));
}
