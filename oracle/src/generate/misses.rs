//! A near miss for each error and each form of 27, set into a program that would convert without.

use super::programs::Maker;
use super::rng::Rng;
use crate::ast::{Ar, Ex, Fun, St, Ty};
use crate::write::*;

/// The numbers that a near miss can aim at.
pub const NUMBERS: [u32; 24] =
    [1, 2, 3, 4, 5, 6, 7, 8, 9, 10, 11, 12, 13, 14, 15, 16, 17, 18, 19, 20, 21, 22, 23, 27];

/// What is wrong: functions to add, or a body (with its return type) that shows the fault.
#[derive(Default)]
struct Miss {
    before: Vec<Fun>,
    params: Vec<(&'static str, Ty)>,
    ret: Option<Ty>,
    body: Vec<St>,
}

fn body(statements: Vec<St>) -> Miss {
    Miss { body: statements, ..Miss::default() }
}

fn functions(before: Vec<Fun>) -> Miss {
    Miss { before, ..Miss::default() }
}

fn returning(ret: Ty, body: Vec<St>) -> Miss {
    Miss { ret: Some(ret), body, ..Miss::default() }
}

/// A program with one fault of this number, somewhere in it.
pub fn program(rng: &mut Rng, number: u32) -> Vec<Fun> {
    let mut miss = fault(rng, number);
    let before_it = rng.below(3);
    let mut maker = Maker::new(rng, 0, 30);
    let mut functions = maker.program();
    let plain = func("보다", &[], None, Vec::new());
    let mut around = around_body(rng, before_it);
    if miss.ret.is_none() && !miss.body.is_empty() && rng.chance(30) && !matches!(number, 9) {
        miss.body = vec![St::If(Ex::Bool(true), vec![], Some(miss.body))];
    }
    around.extend(miss.body);
    if rng.flip() && miss.ret.is_none() {
        around.push(St::Call(call_of("없는것", vec![])));
    }
    let faulty = func("틀리다", &miss.params, miss.ret, around);
    functions.push(faulty);
    functions.push(plain);
    // Another `main` would come first, or be the one that is needed.
    if number == 10 || number == 11 {
        functions.retain(|func| func.name != b"main");
    }
    functions.splice(0..0, miss.before);
    functions
}

/// Plain statements before the fault, of names that it does not use.
fn around_body(rng: &mut Rng, count: usize) -> Vec<St> {
    let mut body = Vec::new();
    for at in 0..count {
        body.push(match rng.below(3) {
            0 => declare(&format!("앞{at}"), DOUBLE),
            1 => init(&format!("앞{at}"), int(7)),
            _ => St::While(Ex::Bool(false), vec![St::Break]),
        });
    }
    body
}

fn fault(rng: &mut Rng, number: u32) -> Miss {
    match number {
        1 | 2 | 10 | 11 | 22 | 23 => function_fault(rng, number),
        3 | 4 | 6 => name_fault(rng, number),
        5 | 8 | 15 => call_fault(rng, number),
        7 | 9 | 12 => return_fault(rng, number),
        13 => wrong_assign(rng),
        14 => wrong_operands(rng),
        16 => out_of_range(rng),
        17 => body(vec![[init("값", bad_cast(rng)), St::Call(bad_cast(rng))][rng.below(2)].clone()]),
        18 => not_bool(rng),
        19 => not_integer(rng),
        20 => body(vec![St::If(Ex::Bool(true), vec![St::Break], None)]),
        21 => body(vec![St::Continue]),
        _ => stop(rng),
    }
}

fn function_fault(rng: &mut Rng, number: u32) -> Miss {
    let same = || func("같다", &[("가", LONG)], None, Vec::new());
    let puts = || external("puts", &[], None, false);
    let main = |ret| func("main", &[], ret, vec![St::Return(int(0))]);
    functions(match (number, rng.below(3)) {
        (1, 0) => vec![same(), same()],
        (1, 1) => vec![same(), declared("같다", &[("나", LONG)], Some(Ty::Bool), false)],
        (1, _) => vec![external("z", &[], None, false), Fun { mangled: b"z".to_vec(), ..same() }],
        (2, 0) => vec![puts(), puts()],
        (2, 1) => vec![main(Some(LONG)), main(Some(SHORT))],
        (2, _) => vec![Fun { mangled: b"puts".to_vec(), ..same() }, puts()],
        (10, _) => vec![],
        (11, 0) => vec![external("main", &[], None, false)],
        (11, 1) => vec![declared("main", &[], Some(Ty::Bool), false)],
        (11, _) => vec![func("main", &[], None, vec![St::Break])],
        (22, 0) => vec![func("plain", &[], None, vec![])],
        (22, 1) => vec![declared("", &[], None, false)],
        (22, _) => vec![declared("Main", &[], None, true)],
        (_, 0) => vec![external("더하다", &[], None, false)],
        (_, 1) => vec![Fun { name: b"a\x80".to_vec(), ..external("a", &[], None, false) }],
        _ => vec![Fun { external: true, ..func("é", &[], None, vec![]) }],
    })
}

fn name_fault(rng: &mut Rng, number: u32) -> Miss {
    let fixed = || constant("끝", int(10));
    match (number, rng.below(5)) {
        (3, 0) => Miss { params: vec![("가", LONG), ("가", Ty::Bool)], ..Miss::default() },
        (3, 1) => body(vec![init("가", int(1)), declare("가", custom("꼴"))]),
        (3, 2) => body(vec![init("가", int(1)), constant("가", Ex::Bool(true))]),
        (3, 3) => body(vec![init("가", int(1)), for_loop("가", Some(DOUBLE), int(0), int(1), vec![])]),
        (3, _) => body(vec![fixed(), St::If(Ex::Bool(true), vec![declare("끝", LONG)], None)]),
        (4, 0) => body(vec![for_loop("수", None, int(0), int(1), vec![])]),
        (4, 1) => body(vec![for_loop("수", Some(LONG), int(0), name("수"), vec![])]),
        (4, 2) => body(vec![St::If(Ex::Bool(true), vec![init("안", int(1))], None), init("밖", name("안"))]),
        (4, 3) => body(vec![St::Call(binary(name("가"), ADD, Ex::Bool(true)))]),
        (4, _) => body(vec![St::Call(call_of("틀리다", vec![name("없")]))]),
        (_, 0) => body(vec![fixed(), for_loop("끝", None, int(0), int(1), vec![])]),
        (_, 1) => body(vec![fixed(), init("끝", name("없"))]),
        _ => body(vec![fixed(), init("끝", int(2))]),
    }
}

fn call_fault(rng: &mut Rng, number: u32) -> Miss {
    let short = || declared("쓰다", &[("가", SHORT)], Some(LONG), false);
    let unsigned = || declared("쓰다", &[("가", USHORT)], None, false);
    let write = |value| St::Call(call_of("쓰다", vec![value]));
    let with = |before, statement| Miss { before, ..body(vec![statement]) };
    match (number, rng.below(5)) {
        (5, 0) => with(vec![short()], write(int(1 << 31))),
        (5, 1) => with(vec![short()], write(binary(int(1), DIV, int(0)))),
        (5, 2) => with(vec![external("put", &[("가", LONG)], None, false)], St::Call(call_of("put", vec![]))),
        (5, 3) => with(vec![short()], St::Call(call("쓰다", vec![value(int(1)), Ar::Type(LONG)]))),
        (5, _) => body(vec![St::Call(call_of("바꾸다", vec![int(1)]))]),
        (8, 0) => with(vec![unsigned()], init("값", call_of("쓰다", vec![Ex::Int(1, true, true)]))),
        (8, 1) => with(vec![unsigned()], St::Return(call_of("쓰다", vec![int(5)]))),
        (8, _) => with(vec![unsigned(), short()], write(call_of("쓰다", vec![int(1 << 31)]))),
        (_, 0) => with(vec![short(), unsigned()], init("값", call_of("쓰다", vec![int(0)]))),
        _ => with(vec![unsigned(), short()], write(int(i64::from(i32::MAX)))),
    }
}

fn return_fault(rng: &mut Rng, number: u32) -> Miss {
    let one = || vec![St::Return(int(1))];
    match (number, rng.below(5)) {
        (7, _) => body(vec![St::Return(Ex::Bool(true))]),
        (9, 0) => returning(LONG, vec![]),
        (9, 1) => returning(LONG, vec![St::While(Ex::Bool(true), one())]),
        (9, 2) => returning(LONG, vec![St::If(Ex::Bool(true), one(), None)]),
        (9, 3) => returning(LONG, vec![St::If(Ex::Bool(true), one(), Some(vec![]))]),
        (9, _) => returning(LONG, vec![for_loop("수", Some(LONG), int(0), int(1), one())]),
        (_, 0) => returning(Ty::Bool, one()),
        (_, 1) => returning(SHORT, vec![St::Return(binary(int(1), SHL, int(128)))]),
        (_, 2) => returning(SINGLE, one()),
        (_, 3) => returning(address(LONG), vec![St::Return(string("글"))]),
        _ => returning(ULONG, vec![init("가", int(1)), St::Return(name("가"))]),
    }
}

fn wrong_assign(rng: &mut Rng) -> Miss {
    let (ty, value) = match rng.below(6) {
        0 => (Ty::Bool, int(1)),
        1 => (LONG, Ex::SizeOf(LONG)),
        2 => (address(Ty::Char), int(0)),
        3 => (DOUBLE, int(1)),
        4 => (SHORT, binary(int(1), REM, int(0))),
        _ => (array(LONG, 2), Ex::Null),
    };
    body(vec![declare("가", ty), init("가", value)])
}

fn wrong_operands(rng: &mut Rng) -> Miss {
    let bad = match rng.below(8) {
        0 => unary(NOT, int(1)),
        1 => unary(NEG, Ex::Bool(true)),
        2 => unary(BIT_NOT, float(1.0)),
        3 => binary(int(1), AND, int(1)),
        4 => binary(float(1.0), REM, float(2.0)),
        5 => binary(Ex::Bool(true), LT, Ex::Bool(false)),
        6 => binary(int(1), EQ, Ex::Bool(true)),
        _ => {
            let short = |value| Ex::Int(value, true, false);
            binary(binary(short(1), SHL, short(128)), ADD, binary(int(1), SHL, int(128)))
        }
    };
    body(vec![[init("가", bad.clone()), St::Call(bad)][rng.below(2)].clone()])
}

fn out_of_range(rng: &mut Rng) -> Miss {
    let big = || float(f64::from_bits(0x47EF_FFFF_E000_0001));
    let infinite = || binary(float(1.0), DIV, float(0.0));
    let short = |value| body(vec![declare("가", SHORT), init("가", value)]);
    match rng.below(8) {
        0 => short(int(1 << 31)),
        1 => short(unary(NEG, int((1 << 31) + 1))),
        2 => body(vec![declare("가", USHORT), init("가", int(-1))]),
        3 => body(vec![declare("가", SINGLE), init("가", big())]),
        4 => Miss {
            params: vec![("가", SINGLE)],
            ..body(vec![init("나", binary(infinite(), ADD, name("가")))])
        },
        5 => body(vec![for_loop("수", Some(SHORT), int(0), int(1 << 32), vec![])]),
        6 => returning(ULONG, vec![St::Return(int(-1))]),
        _ => Miss {
            params: vec![("가", SHORT)],
            ..body(vec![init("나", binary(name("가"), AND, int(1 << 40)))])
        },
    }
}

fn bad_cast(rng: &mut Rng) -> Ex {
    match rng.below(5) {
        0 => cast(string("글"), DOUBLE),
        1 => cast(Ex::Null, SHORT),
        2 => cast(float(1.0), address(LONG)),
        3 => cast(int(1), Ty::Null),
        _ => cast(int(1), array(LONG, 1)),
    }
}

fn not_bool(rng: &mut Rng) -> Miss {
    let condition = [int(1), Ex::Null, string("참"), Ex::SizeOf(custom("꼴"))][rng.below(4)].clone();
    body(vec![if rng.flip() { St::If(condition, vec![], None) } else { St::While(condition, vec![]) }])
}

fn not_integer(rng: &mut Rng) -> Miss {
    let over = |ty, from, until| body(vec![for_loop("수", Some(ty), from, until, vec![])]);
    match rng.below(5) {
        0 => over(DOUBLE, int(0), int(1)),
        1 => over(LONG, float(0.0), int(1)),
        2 => over(LONG, int(0), Ex::SizeOf(LONG)),
        3 => over(SHORT, int(0), binary(int(1), DIV, int(0))),
        _ => body(vec![init("가", float(1.0)), for_loop("가", None, int(0), int(1), vec![])]),
    }
}

fn stop(rng: &mut Rng) -> Miss {
    let nothing = || call("바꾸다", vec![Ar::Type(LONG)]);
    let sizes = [
        custom("꼴"),
        Ty::Null,
        array(Ty::Null, 0),
        array(array(custom("꼴"), 2), 0),
        array(Ty::Byte, 1 << 63),
        array(array(LONG, 1 << 40), 1 << 40),
        array(array(LONG, 1 << 63), 2),
    ];
    let size = Ex::SizeOf(sizes[rng.below(sizes.len())].clone());
    match rng.below(7) {
        0 => body(vec![declare("가", custom("꼴"))]),
        1 => body(vec![St::Call(cast(size, LONG))]),
        2 => body(vec![St::Call(nothing())]),
        3 => body(vec![init("가", nothing())]),
        4 => body(vec![init("가", binary(Ex::Bool(false), AND, binary(nothing(), LT, int(1))))]),
        5 => body(vec![declare("가", Ty::Bool), init("가", size)]),
        _ => body(vec![init("가", cast(binary(int(1), ADD, size), DOUBLE))]),
    }
}
