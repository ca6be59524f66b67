//! Programs that convert, with forms that the other classes seldom or never make.

use super::constants::integer;
use super::programs::scalars;
use super::rng::Rng;
use crate::ast::{Ar, Ex, Fun, St, Ty};
use crate::write::*;

/// Any type, up to two levels deep.
fn any_type(rng: &mut Rng, depth: usize) -> Ty {
    let flat: Vec<Ty> = scalars().into_iter().chain([Ty::Null, custom("꼴")]).collect();
    match rng.below(if depth == 0 { 1 } else { 3 }) {
        0 => rng.pick(&flat).clone(),
        1 => address(any_type(rng, depth - 1)),
        _ => array(any_type(rng, depth - 1), [0, 1, 2, 7, 1 << 20][rng.below(5)]),
    }
}

/// A type that may be declared: any but a Custom.
fn declared_type(rng: &mut Rng) -> Ty {
    match any_type(rng, 2) {
        Ty::Custom(_) => address(custom("꼴")),
        ty => ty,
    }
}

/// A function that returns a type of which there are only variables, and one that calls it.
fn odd_result(rng: &mut Rng) -> Vec<Fun> {
    let ty = match rng.below(3) {
        0 => address(any_type(rng, 1)),
        1 => array(any_type(rng, 1), 1 + rng.below(4) as u64),
        _ => Ty::Null,
    };
    let give = func("주다", &[("것", ty.clone())], Some(ty.clone()), vec![St::Return(name("것"))]);
    let used =
        vec![init("나", call_of("주다", vec![name("것")])), St::Call(call_of("주다", vec![name("것")]))];
    vec![give, func("쓰다", &[("것", ty)], None, used)]
}

/// Casts: a short unsigned literal, two type arguments, between addresses, Null and both long integers.
fn casts(rng: &mut Rng) -> Vec<Fun> {
    let to = rng.pick(&scalars()).clone();
    let (unsigned, inner) = (rng.flip(), any_type(rng, 1));
    let long = if unsigned { ULONG } else { LONG };
    let body = match rng.below(4) {
        0 => vec![init("가", cast(Ex::Int(integer(rng), true, true), to))],
        1 => {
            let mut args = vec![Ar::Value(Ex::Int(3, false, false)), Ar::Type(to), Ar::Type(LONG)];
            args.swap(rng.below(3), rng.below(3));
            vec![init("가", call("바꾸다", args))]
        }
        2 => {
            let there = cast(Ex::Int(integer(rng), false, unsigned), address(inner.clone()));
            vec![
                init("가", there),
                init("나", cast(name("가"), long)),
                init("다", cast(string("글"), address(inner))),
            ]
        }
        _ => vec![
            init("가", cast(Ex::Null, long)),
            init("나", cast(name("가"), address(Ty::Null))),
            init("다", cast(Ex::Null, address(inner))),
        ],
    };
    vec![func("바뀌다", &[], None, body)]
}

/// Null beside strings and addresses, and statements that are only typed.
fn nothing(rng: &mut Rng) -> Vec<Fun> {
    let sides = [Ex::Null, string("글"), name("곳"), string("")];
    let (left, right) = (rng.pick(&sides).clone(), rng.pick(&sides[..3]).clone());
    let same = binary(left, [EQ, NE][rng.below(2)], right);
    let alone = [Ex::Null, string("줄"), Ex::Bool(true), float(0.25), Ex::SizeOf(any_type(rng, 2))];
    let body = vec![St::Call(rng.pick(&alone).clone()), init("가", same), St::Call(rng.pick(&alone).clone())];
    vec![func("없애다", &[("곳", address(Ty::Char))], None, body)]
}

/// Empty bodies, with parameters and the variadic mark; If and loops without statements.
fn empty(rng: &mut Rng) -> Vec<Fun> {
    let params: Vec<(String, Ty)> = (0..rng.below(5)).map(|i| (format!("값{i}"), any_type(rng, 2))).collect();
    let params: Vec<(&str, Ty)> = params.iter().map(|(name, ty)| (name.as_str(), ty.clone())).collect();
    let bare = Fun { body: Some(Vec::new()), ..declared("비다", &params, None, rng.flip()) };
    let hollow = vec![
        St::If(Ex::Bool(true), vec![], Some(vec![])),
        St::While(Ex::Bool(false), vec![]),
        for_loop("수", Some([LONG, SHORT, ULONG, USHORT][rng.below(4)].clone()), int(0), int(3), vec![]),
    ];
    vec![bare, func("속비다", &[], None, hollow)]
}

/// Names of functions with `$`, called by verbs that may meet a longer name.
fn dollars(rng: &mut Rng) -> Vec<Fun> {
    let names = ["가$int", "가$", "가", "가$...", "가$int$int", "$가"];
    let mut functions: Vec<Fun> = Vec::new();
    for _ in 0..1 + rng.below(3) {
        let params = [("값", LONG), ("수", LONG)];
        let text = *rng.pick(&names);
        let made = declared(text, &params[..rng.below(3)], Some(LONG), rng.chance(20));
        if functions.iter().all(|other| other.mangled != made.mangled) {
            functions.push(made);
        }
    }
    let values = vec![int(1); rng.below(3)];
    let verb = *rng.pick(&names);
    functions.push(func("부르다", &[], None, vec![St::Call(call_of(verb, values))]));
    functions
}

/// Declared variables of any type, read by a call of a function without a body.
fn declared_any(rng: &mut Rng) -> Vec<Fun> {
    let ty = declared_type(rng);
    let take = declared("받다", &[("것", ty.clone())], None, false);
    let body = vec![declare("가", ty), St::Call(call_of("받다", vec![name("가")])), init("나", name("가"))];
    vec![take, func("밝히다", &[], None, body)]
}

/// A program of the rare form number `which`.
pub fn program(rng: &mut Rng, which: usize) -> Vec<Fun> {
    match which % 6 {
        0 => odd_result(rng),
        1 => casts(rng),
        2 => nothing(rng),
        3 => empty(rng),
        4 => dollars(rng),
        _ => declared_any(rng),
    }
}
