//! Functions and calls whose names, mangled names, key texts and verbs come from small pools of odd
//! texts, so that they meet in every way: texts that are not UTF-8, that hold `$`, or are empty.

use super::rng::Rng;
use crate::ast::{Ar, Ex, Fun, Layout, St, Ty};
use crate::write::*;

const KEYS: [&[u8]; 7] = [b"a", b"b", b"", b"a$b", b"...", b"\xFF", b"\xEA\xB0"];
const VERBS: [&[u8]; 11] = [
    b"\xFF",
    b"\xFE",
    b"\xFF$a",
    b"\xFF$a$b",
    b"\xFE$",
    b"f",
    b"g",
    b"",
    b"main",
    b"\xEB\xB0\x94\xEA\xBE\xB8\xEB\x8B\xA4",
    b"\xEB\xB0\x94\xEA\xBE\xB8\xEB\x8B",
];
const TAILS: [&[u8]; 8] = [b"", b"$a", b"$b", b"$a$b", b"$...", b"$a$...", b"$", b"$$..."];

fn types() -> [Ty; 7] {
    [LONG, SHORT, SINGLE, DOUBLE, Ty::Bool, address(Ty::Char), Ty::Custom(b"\xFF".to_vec())]
}

fn ty(rng: &mut Rng) -> Ty {
    rng.pick(&types()).clone()
}

fn function(rng: &mut Rng) -> Fun {
    let name = rng.pick(&VERBS).to_vec();
    let external = if name.is_ascii() { rng.chance(99) } else { rng.chance(1) };
    let base = if rng.chance(80) { name.clone() } else { rng.pick(&VERBS).to_vec() };
    let mangled = [base, rng.pick(&TAILS).to_vec()].concat();
    let count = rng.below(3);
    let params = (0..count).map(|at| (vec![0x80 + at as u8], ty(rng))).collect();
    let ret = if name == b"main" { Some(LONG) } else { rng.chance(70).then(|| ty(rng)) };
    let body = rng.chance(10).then(|| vec![St::Return(int(1))]);
    let body = if ret == Some(LONG) { body } else { None };
    Fun { name, mangled, params, ret, body, external, variadic: rng.chance(30) }
}

/// A leaf of type `ty`: a literal or the caller's parameter.
fn leaf(rng: &mut Rng, ty: &Ty) -> Ex {
    let at = types().iter().position(|other| other == ty).unwrap_or(0);
    match ty {
        Ty::Int { short, .. } if rng.flip() => Ex::Int(1, *short, false),
        Ty::Float { short } if rng.flip() => Ex::Float(0.5f64.to_bits(), *short),
        _ => Ex::Name(vec![0x90 + at as u8]),
    }
}

/// A call that is meant for `func`, with now and then an argument more or of another kind.
fn call_for(rng: &mut Rng, func: &Fun, depth: usize) -> Ex {
    let mut args = Vec::new();
    for (_, ty) in &func.params {
        args.push(if rng.chance(10) { argument(rng, depth) } else { Ar::Value(leaf(rng, ty)) });
    }
    if func.variadic || rng.chance(5) {
        args.extend((0..rng.below(3)).map(|_| argument(rng, depth)));
    }
    Ex::Call(func.name.clone(), args)
}

fn argument(rng: &mut Rng, depth: usize) -> Ar {
    if rng.chance(15) {
        return Ar::Type(ty(rng));
    }
    Ar::Value(match rng.below(if depth == 0 { 8 } else { 10 }) {
        0 => int(rng.below(5) as i64),
        1 => int(1 << 40),
        2 => Ex::Int(1, true, false),
        3 => float(0.5),
        4 => Ex::Float(0.5f64.to_bits(), true),
        5 => Ex::Bool(true),
        6 => Ex::Str(rng.pick(&VERBS).to_vec()),
        7 => Ex::Name(vec![0x90 + rng.below(7) as u8]),
        _ => call(rng, depth - 1),
    })
}

fn call(rng: &mut Rng, depth: usize) -> Ex {
    let verb = rng.pick(&VERBS).to_vec();
    let count = rng.below(4);
    Ex::Call(verb, (0..count).map(|_| argument(rng, depth)).collect())
}

fn one_call(rng: &mut Rng, functions: &[Fun]) -> Ex {
    if functions.is_empty() || rng.chance(20) {
        return call(rng, 2);
    }
    let func = rng.pick(functions).clone();
    call_for(rng, &func, 1)
}

/// A program of odd functions and a few calls, laid out with odd key texts.
pub fn layout(rng: &mut Rng) -> Layout {
    let mut functions: Vec<Fun> = Vec::new();
    let taken = |functions: &[Fun], new: &Fun| {
        let key = |func: &Fun| {
            let named = func.external || func.name == b"main";
            if named { func.name.clone() } else { func.mangled.clone() }
        };
        functions.iter().any(|func| key(func) == key(new))
    };
    for _ in 0..2 + rng.below(8) {
        let new = function(rng);
        if !taken(&functions, &new) || rng.chance(3) {
            functions.push(new);
        }
    }
    let params: Vec<(Vec<u8>, Ty)> =
        types().into_iter().enumerate().map(|(at, ty)| (vec![0x90 + at as u8], ty)).collect();
    let body = (0..1 + rng.below(3)).map(|_| St::Call(one_call(rng, &functions))).collect();
    let caller = func("\u{AC00}", &[], None, body);
    functions.insert(rng.below(functions.len() + 1), Fun { params, ..caller });
    let keys = (0..13).map(|at| (at, rng.pick(&KEYS).to_vec())).collect();
    let mut layout = Layout { keys, share_texts: rng.flip(), interleave: rng.flip(), ..Layout::default() };
    layout.add(&functions);
    layout
}
