//! Programs whose bodies and tables were worked out by hand from Krc's text.

mod common;

use common::{line, line_with};
use oracle::ast::{Ar, Ex, Fun, St, Ty};
use oracle::write::*;

const B: Ty = Ty::Bool;

fn one(params: &[(&str, Ty)], ret: Option<Ty>, body: Vec<St>) -> String {
    line(&[func("하다", params, ret, body)])
}

#[test]
fn while_with_break_and_continue() {
    let inner = vec![St::If(name("가"), vec![St::Break], None), St::Continue];
    let body = vec![St::While(Ex::Bool(true), inner)];
    let want = "g0 (6) [1:s0 2:s0 5:s1] Comment s0; Label L0; JumpIfNot true L1; Comment s1; \
                JumpIfNot v0 L2; Comment s2; Jump L1; Label L2; Comment s3; Jump L0; Jump L0; Label L1";
    assert_eq!(one(&[("가", B)], None, body), want);
}

#[test]
fn typed_for_of_unsigned_short() {
    let body = vec![for_loop("수", Some(USHORT), int(0), name("끝"), vec![])];
    let want = "g0 (3 3 6) [3:s0 1:s0 2:s0] Comment s0; Copy v1 0us; Jump L0; Label L1; \
                Binary v1 v1 + 1us; Label L0; Binary v2 v1 < v0; JumpIfNot v2 L2; Jump L1; Label L2";
    assert_eq!(one(&[("끝", USHORT)], None, body), want);
}

#[test]
fn untyped_for_with_computed_bounds() {
    let bound = || binary(name("수"), ADD, int(2));
    let inner = vec![St::Continue, St::Break];
    let body = vec![for_loop("수", None, bound(), bound(), inner)];
    let want = "g0 (0 0 0 6) [3:s0 1:s0 2:s0] Comment s0; Binary v1 v0 + 2; Copy v0 v1; Jump L0; Label L1; \
                Binary v0 v0 + 1; Label L0; Binary v2 v0 + 2; Binary v3 v0 < v2; JumpIfNot v3 L2; \
                Comment s1; Jump L1; Comment s2; Jump L2; Jump L1; Label L2";
    assert_eq!(one(&[("수", LONG)], None, body), want);
}

#[test]
fn if_with_otherwise_returns() {
    let (then, otherwise) = (vec![St::Return(int(1))], vec![St::Return(int(2))]);
    let body = vec![St::If(name("가"), then, Some(otherwise))];
    let want = "g0 (6) [4:s0 5:s0] Comment s0; JumpIfNot v0 L0; Comment s1; Return 1; Jump L1; Label L0; \
                Comment s2; Return 2; Label L1";
    assert_eq!(one(&[("가", B)], Some(LONG), body), want);
}

#[test]
fn variadic_external() {
    let args = vec![string("a"), Ex::Float(1.5f64.to_bits(), true), int(2), name("가")];
    let printf = external("printf", &[("글", address(Ty::Char))], Some(SHORT), true);
    let user = func("하다", &[("가", SINGLE)], None, vec![St::Call(call_of("printf", args))]);
    let got = line(&[printf, user]);
    let want = "!g0 () []  | g1 (5 4) [] Comment s0; Cast v1 v0; Arg str0; Arg f1; Arg 2; Arg v1; Call g0";
    assert!(got.starts_with(want), "{got}");
    assert!(got.ends_with("=a | 1.5s | 1.5"), "{got}");
}

#[test]
fn overload_by_literal() {
    let short = declared("더하다", &[("가", SHORT)], Some(SHORT), false);
    let bool = declared("더하다", &[("가", B)], Some(B), false);
    let body = vec![init("나", call_of("더하다", vec![int(1)]))];
    let got = line(&[bool, short, func("하다", &[], None, body)]);
    let want = "!g0 () []  | !g1 () []  | g2 (1 1) [] Comment s0; Arg 1s; Call v0 g1; Copy v1 v0";
    assert_eq!(got, want);
}

#[test]
fn nested_logic() {
    let or = binary(name("가"), OR, name("나"));
    let body = vec![St::Return(binary(or, AND, unary(NOT, name("다"))))];
    let want = "g0 (6 6 6 6 6 6) [6:e0 7:e0 6:e1 7:e1] Comment s0; Copy v4 v0; JumpIfNot v4 L2; Jump L3; \
                Label L2; Copy v4 v1; Label L3; Copy v3 v4; JumpIfNot v3 L1; Unary v5 not v2; Copy v3 v5; \
                Label L1; Return v3";
    assert_eq!(one(&[("가", B), ("나", B), ("다", B)], Some(B), body), want);
}

#[test]
fn cast_to_float() {
    let body = vec![init("가", cast(int(3), DOUBLE))];
    assert_eq!(one(&[], None, body), "g0 (4 4) [] Comment s0; Cast v0 3; Copy v1 v0");
}

#[test]
fn cast_drops_extra_values() {
    let args = vec![Ar::Type(B), value(int(3)), value(float(2.0)), Ar::Type(DOUBLE)];
    let body = vec![init("가", call("바꾸다", args))];
    assert_eq!(one(&[], None, body), "g0 (6 6) [] Comment s0; Cast v0 3; Copy v1 v0 | 2");
}

#[test]
fn declare_each_type() {
    let types = [
        LONG,
        USHORT,
        DOUBLE,
        SINGLE,
        B,
        Ty::Char,
        Ty::Byte,
        Ty::Null,
        address(LONG),
        array(custom("꼴"), 3),
    ];
    let names = ["가", "나", "다", "라", "마", "바", "사", "아", "자", "차"];
    let body = names.iter().zip(types).map(|(name, ty)| declare(name, ty)).collect();
    let want = "g0 (0 3 4 5 6 7 8 9 12 14) [] Comment s0; Copy v0 0; Comment s1; Copy v1 0us; Comment s2; \
                Copy v2 f0; Comment s3; Copy v3 f1; Comment s4; Copy v4 false; Comment s5; Copy v5 false; \
                Comment s6; Copy v6 false; Comment s7; Copy v7 null; Comment s8; Copy v8 null; Comment s9; \
                Zero v9 | 0 | 0s";
    assert_eq!(one(&[], None, body), want);
}

#[test]
fn null_makes_an_address() {
    let body = vec![init("가", Ex::Null), init("가", string("글")), constant("나", name("가"))];
    let got = one(&[], None, body);
    let want = "g0 (11 11) [] Comment s0; Copy v0 null; Comment s1; Copy v0 str0; Comment s2; Copy v1 v0 | ";
    assert!(got.starts_with(want), "{got}");
}

#[test]
fn size_of_tags() {
    let sum = binary(Ex::SizeOf(array(SHORT, 5)), ADD, int(1));
    let body = vec![init("가", Ex::SizeOf(LONG)), init("나", sum), init("가", Ex::SizeOf(B))];
    let want = "g0 (2 2 2) [] Comment s0; Copy v0 8; Comment s1; Binary v1 20u + 1u; Copy v2 v1; \
                Comment s2; Copy v0 1u";
    assert_eq!(one(&[], None, body), want);
}

#[test]
fn float_sides_take_a_cast() {
    let sum = binary(float(1.5), ADD, float(2.0));
    let body = vec![init("나", binary(name("가"), LT, sum))];
    let want = "g0 (5 4 5 6 6) [] Comment s0; Binary v1 f0 + f1; Cast v2 v1; Binary v3 v0 < v2; Copy v4 v3 \
                | 1.5 | 2";
    assert_eq!(one(&[("가", SINGLE)], None, body), want);
}

#[test]
fn assign_of_a_negated_float() {
    let body = vec![init("가", unary(NEG, float(0.5)))];
    let want = "g0 (5 4 5) [] Comment s0; Unary v1 - f0; Cast v2 v1; Copy v0 v2 | 0.5";
    assert_eq!(one(&[("가", SINGLE)], None, body), want);
}

#[test]
fn recursion_and_calls_without_value() {
    let again = func("세다", &[("수", LONG)], None, vec![St::Call(call_of("세다", vec![name("수")]))]);
    let inner = call_of("얻다", vec![]);
    let user = func(
        "하다",
        &[],
        Some(LONG),
        vec![St::Call(call_of("세다", vec![inner])), St::Return(call_of("얻다", vec![]))],
    );
    let get = declared("얻다", &[], Some(LONG), false);
    let want = "g0 (0) [] Comment s0; Arg v0; Call g0 | !g1 () []  | g2 (0 0) [] Comment s1; Call v0 g1; \
                Arg v0; Call g0; Comment s2; Call v1 g1; Return v1";
    assert_eq!(line(&[again, get, user]), want);
}

#[test]
fn strings_by_first_use() {
    let body = vec![
        init("가", string("xa")),
        init("나", string("yb")),
        init("다", string("xa")),
        init("라", string("")),
    ];
    let got = one(&[], None, body);
    let want = "Comment s0; Copy v0 str0; Comment s1; Copy v1 str1; Comment s2; Copy v2 str0; Comment s3; Copy v3 str2 | ";
    assert!(got.contains(want), "{got}");
    let tail: Vec<&str> = got.rsplit(" | ").take(3).map(|part| part.split_once('=').unwrap().1).collect();
    assert_eq!(tail, ["", "yb", "xa"]);
}

#[test]
fn only_typed() {
    let sum = binary(float(1.5), ADD, float(2.5));
    let body = vec![St::Call(sum), St::Call(Ex::SizeOf(custom("꼴"))), St::Call(string("글"))];
    assert_eq!(one(&[], None, body), "g0 () [] Comment s0; Comment s1; Comment s2");
}

#[test]
fn zeros_of_both_signs() {
    let body = vec![
        init("가", float(0.0)),
        init("나", float(-0.0)),
        init("다", Ex::Float(0, true)),
        init("라", float(0.0)),
    ];
    let want = "g0 (4 4 5 4) [] Comment s0; Copy v0 f0; Comment s1; Copy v1 f1; Comment s2; Copy v2 f2; \
                Comment s3; Copy v3 f0 | 0 | -0 | 0s";
    assert_eq!(one(&[], None, body), want);
}

#[test]
fn labels_of_nested_blocks() {
    let inner = St::While(Ex::Bool(false), vec![St::Break]);
    let test = St::If(name("가"), vec![inner], Some(vec![St::Continue]));
    let body =
        vec![St::While(name("가"), vec![test]), St::While(binary(name("가"), AND, name("가")), vec![])];
    let want = "g0 (6 6) [1:s0 2:s0 4:s1 1:s2 2:s2 5:s1 1:s5 6:e3 7:e3 2:s5] Comment s0; Label L0; \
                JumpIfNot v0 L1; Comment s1; JumpIfNot v0 L2; Comment s2; Label L3; JumpIfNot false L4; \
                Comment s3; Jump L4; Jump L3; Label L4; Jump L5; Label L2; Comment s4; Jump L0; Label L5; \
                Jump L0; Label L1; Comment s5; Label L6; Copy v1 v0; JumpIfNot v1 L8; Copy v1 v0; Label L8; \
                JumpIfNot v1 L9; Jump L6; Label L9";
    assert_eq!(one(&[("가", B)], None, body), want);
}

/// The value is at position 1, where there is no parameter: it stays long.
#[test]
fn type_argument_takes_a_place() {
    let mangled = "재다$float$float".into();
    let measure = Fun { mangled, ..declared("재다", &[("가", SINGLE)], Some(B), false) };
    let args = vec![Ar::Type(DOUBLE), value(float(1.5))];
    let user = func("하다", &[], None, vec![init("나", call("재다", args))]);
    let want = "!g0 () []  | g1 (6 6) [] Comment s0; Arg f0; Call v0 g0; Copy v1 v0 | 1.5";
    assert_eq!(line(&[measure, user]), want);
}

#[test]
fn longest_variadic_prefix() {
    let long = declared("적다", &[("가", LONG)], None, true);
    let any = declared("적다", &[], None, true);
    let user = func("하다", &[], None, vec![St::Call(call_of("적다", vec![int(1), Ex::Bool(true)]))]);
    let want = "!g0 () []  | !g1 () []  | g2 () [] Comment s0; Arg 1; Arg true; Call g1";
    assert_eq!(line(&[any, long, user]), want);
}

#[test]
fn code_after_return() {
    let body = vec![St::Return(int(1)), init("가", Ex::Bool(true)), St::Return(int(7))];
    let want = "g0 (6) [] Comment s0; Return 1s; Comment s1; Copy v0 true; Comment s2; Return 7s";
    assert_eq!(one(&[], Some(SHORT), body), want);
}

#[test]
fn external_with_body_and_main() {
    let log = Fun { external: true, ..func("log", &[("가", LONG)], None, vec![St::Call(name("가"))]) };
    let main = func("main", &[], Some(SHORT), vec![St::Call(call_of("main", vec![])), St::Return(int(0))]);
    let want = "g0 (0) [] Comment s0 | g1 () [] Comment s1; Call g1; Comment s2; Return 0s";
    assert_eq!(line_with(&[log, main], true), want);
}

#[test]
fn refusals_by_hand() {
    let none = |body| one(&[("짧", SHORT), ("참", B)], None, body);
    let unsized_value = Ex::SizeOf(custom("꼴"));
    assert_eq!(none(vec![init("참", unsized_value)]), "27 e0");
    let own = for_loop("수", Some(LONG), int(0), name("수"), vec![]);
    assert_eq!(none(vec![own]), "4 e1");
    assert_eq!(none(vec![init("나", binary(name("짧"), ADD, int(5_000_000_000)))]), "16 e2");
    assert_eq!(none(vec![St::Call(cast(int(1), B))]), "27 s0");
    assert_eq!(none(vec![St::Call(cast(string("a"), DOUBLE))]), "17 e0");
    assert_eq!(none(vec![init("나", call("바꾸다", vec![Ar::Type(B)]))]), "27 e0");
    assert_eq!(none(vec![declare("짧", custom("꼴"))]), "3 s0");
    assert_eq!(none(vec![declare("나", custom("꼴"))]), "27 s0");
    assert_eq!(none(vec![constant("짧", binary(int(1), AND, int(1)))]), "14 e0");
    assert_eq!(none(vec![constant("짧", int(1))]), "3 s0");
    assert_eq!(none(vec![St::Return(int(1))]), "7 s0");
    assert_eq!(one(&[], Some(LONG), vec![St::While(Ex::Bool(true), vec![St::Return(int(1))])]), "9 g0");
    assert_eq!(one(&[("가", B), ("가", B)], None, vec![]), "3 p1");
    assert_eq!(line_with(&[], true), "10 none");
    let twice = || external("puts", &[], None, false);
    assert_eq!(line(&[twice(), twice()]), "2 g1");
}

#[test]
fn sizes_of_arrays() {
    let size = |ty: Ty| one(&[], None, vec![init("가", Ex::SizeOf(ty))]);
    let huge = || array(array(LONG, 1 << 62), 1 << 62);
    assert_eq!(size(huge()), "27 e0");
    assert_eq!(size(array(huge(), 0)), "g0 (2) [] Comment s0; Copy v0 0");
    assert_eq!(size(array(Ty::Null, 0)), "27 e0");
    let most = "g0 (2) [] Comment s0; Copy v0 9223372036854775807";
    assert_eq!(size(array(Ty::Byte, i64::MAX as u64)), most);
    assert_eq!(size(array(Ty::Byte, 1 << 63)), "27 e0");
}

#[test]
fn bits_of_a_nan_are_kept() {
    use oracle::{Answer, ast::Layout, convert, needed};
    let nan = 0xFFF0_0000_0000_0001u64;
    let body =
        vec![declare("가", SINGLE), init("가", Ex::Float(nan, true)), init("나", Ex::Float(nan, false))];
    let layout = Layout::program(&[func("하다", &[], None, body)]);
    let tree = layout.tree();
    let Answer::Converted(tables) = convert(&tree, &layout.text, false, needed(tree.len())) else {
        panic!("the program converts")
    };
    let entry = |bits: u64, short: u8| [bits.to_le_bytes(), [short, 0, 0, 0, 0, 0, 0, 0]].concat();
    assert_eq!(tables.floats, [entry(0, 1), entry(nan, 1), entry(nan, 0)].concat());
}
