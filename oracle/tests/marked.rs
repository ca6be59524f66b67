//! The marked cases of document 01 and its twelve bare types.

mod common;

use common::line;
use oracle::ask::{Questions, judged};
use oracle::ast::{Ex, Layout, St, Ty};
use oracle::write::*;
use oracle::{convert, needed};

fn short_gets(value: Ex) -> String {
    line(&[func("가다", &[], None, vec![declare("나", SHORT), init("나", value)])])
}

fn fold(expr: Ex) -> Option<i128> {
    let layout = Layout::program(&[func("가다", &[], None, vec![St::Call(expr)])]);
    let bytes = layout.tree();
    let tree = judged(&bytes, &layout.text).unwrap();
    let statement = tree.of_kind(oracle::tree::CALL_STATEMENT).next().unwrap();
    Questions::new(&tree).int_value(tree.at(statement).a())
}

fn logic(op: u8) -> String {
    let params = [("가", Ty::Bool), ("나", Ty::Bool)];
    let body = vec![St::Return(binary(name("가"), op, name("나")))];
    line(&[func("하다", &params, Some(Ty::Bool), body)])
}

#[test]
fn case_1_and() {
    let body = "Comment s0; Copy v2 v0; JumpIfNot v2 L1; Copy v2 v1; Label L1; Return v2";
    assert_eq!(logic(AND), format!("g0 (6 6 6) [6:e0 7:e0] {body}"));
}

#[test]
fn case_2_or() {
    let body = "Comment s0; Copy v2 v0; JumpIfNot v2 L0; Jump L1; Label L0; Copy v2 v1; Label L1; Return v2";
    assert_eq!(logic(OR), format!("g0 (6 6 6) [6:e0 7:e0] {body}"));
}

#[test]
fn cases_3_to_5_short_integers() {
    let fits = "g0 (1) [] Comment s0; Copy v0 0s; Comment s1; Copy v0 2147483647s";
    assert_eq!(short_gets(int(2147483647)), fits);
    assert_eq!(short_gets(int(2147483648)), "16 e0");
    let negated = "g0 (1 0) [] Comment s0; Copy v0 0s; Comment s1; Unary v1 - 2147483648; Copy v0 v1";
    assert_eq!(short_gets(unary(NEG, int(2147483648))), negated);
}

/// Case 6 as amended: it was -2^127 before a shift that loses bits folded to nothing, which -1 << 127 still is.
#[test]
fn cases_6_to_8_folds() {
    let least = || binary(unary(NEG, int(1)), SHL, int(127));
    assert_eq!(fold(binary(int(3), SHL, int(127))), None);
    assert_eq!(fold(binary(int(1), SHL, int(127))), None);
    assert_eq!(fold(least()), Some(i128::MIN));
    assert_eq!(fold(binary(int(1), SHL, int(128))), None);
    assert_eq!(fold(binary(least(), DIV, unary(NEG, int(1)))), None);
}

#[test]
fn case_9_floats() {
    let body = vec![declare("나", SINGLE), init("나", float(0.5))];
    let text = "g0 (5) [] Comment s0; Copy v0 f0; Comment s1; Copy v0 f2 | 0s | 0.5 | 0.5s";
    assert_eq!(line(&[func("가다", &[], None, body)]), text);
}

#[test]
fn case_10_empty_name() {
    assert_eq!(line(&[func("", &[], None, vec![])]), "22 g0");
}

#[test]
fn twelve_types_alone() {
    let layout = Layout::program(&[]);
    let tree = layout.tree();
    assert_eq!(tree.len(), 12 * 32);
    assert_eq!(convert(&tree, &layout.text, false, needed(tree.len())).line(), "0 0 0 0 0 0 0");
}
