//! Programs whose constants hold left shifts near the limit of 128 bits, some of which lose bits.

use super::constants::integer_constant;
use super::rng::Rng;
use crate::ast::{Ex, Fun, St, Ty};
use crate::write::*;

/// 0 and -1 lose bits by no shift.
const KEPT_VALUES: [i64; 2] = [0, -1];
const VALUES: [i64; 11] = [1, 3, -3, 5, 64, 1 << 30, 1 << 31, 1 << 62, (1 << 62) + 1, i64::MAX, i64::MIN];
const COUNTS: [i64; 14] = [0, 1, 2, 30, 31, 32, 62, 63, 64, 65, 124, 125, 126, 127];
/// Counts with which no shift folds.
const NO_COUNTS: [i64; 5] = [128, 129, -1, 1 << 32, i64::MIN];

const INTEGERS: [Ty; 4] = [LONG, SHORT, ULONG, USHORT];

/// What every function takes, so that constants stand beside variables.
const PARAMETERS: [(&str, Ty); 3] = [("짧", SHORT), ("긴", LONG), ("양", ULONG)];

/// A constant and its value in 128 bits, without the bits that it loses.
type Known = (Ex, i128);

fn literal(rng: &mut Rng, value: i64) -> Ex {
    if value < 0 && value != i64::MIN && rng.flip() {
        return unary(NEG, literal(rng, -value));
    }
    Ex::Int(value, rng.chance(12), rng.chance(12))
}

/// A shift that loses bits, or one that does not.
fn shifted(rng: &mut Rng, (expr, value): Known, lose: bool) -> Known {
    let loses = |count: &i64| value << count >> count != value;
    let counts: Vec<i64> = COUNTS.into_iter().filter(|count| loses(count) == lose).collect();
    let count = *rng.pick(&counts);
    (binary(expr, SHL, literal(rng, count)), value << count)
}

/// A literal, shifted once to four times; with `lose` one of these shifts loses bits, else none.
fn shifts(rng: &mut Rng, lose: bool) -> Ex {
    let kept = !lose && rng.chance(20);
    let value = *rng.pick(if kept { &KEPT_VALUES[..] } else { &VALUES[..] });
    let mut known = (literal(rng, value), i128::from(value));
    for _ in 0..[0, 0, 0, 1, 1, 2][rng.below(6)] {
        known = shifted(rng, known, false);
    }
    known = shifted(rng, known, lose);
    if rng.chance(15) {
        known = shifted(rng, known, false);
    }
    known.0
}

/// What stands around a shift: the value comes back, or meets the other width, or is a count itself.
fn around(rng: &mut Rng, shift: Ex) -> Ex {
    let count = *rng.pick(&COUNTS);
    match rng.below(11) {
        0 | 1 => binary(shift, SHR, literal(rng, count)),
        2 => binary(shift, [DIV, MUL][rng.below(2)], literal(rng, -1)),
        3 => binary(shift, [REM, DIV, BIT_AND][rng.below(3)], literal(rng, 64)),
        4 => unary([NEG, BIT_NOT][rng.below(2)], shift),
        5 => binary(literal(rng, 1), [SHL, SHR][rng.below(2)], shift),
        6 | 7 => binary(Ex::Int(5, true, rng.chance(20)), [ADD, SUB, MUL, BIT_OR][rng.below(4)], shift),
        8 => binary(shift, [ADD, BIT_XOR][rng.below(2)], Ex::Int(7, true, rng.chance(20))),
        9 => binary(Ex::Int(0, true, false), REM, shift),
        _ => binary(shift, [ADD, SUB][rng.below(2)], integer_constant(rng, 2)),
    }
}

/// A constant; with `lose` a shift in it loses bits, else hardly ever.
pub fn constant_of(rng: &mut Rng, lose: bool) -> Ex {
    let mut expr = shifts(rng, lose);
    if !lose && rng.chance(25) {
        expr = binary(expr, SHL, int(*rng.pick(&NO_COUNTS)));
    }
    for _ in 0..[0, 0, 1, 1, 2][rng.below(5)] {
        expr = around(rng, expr);
    }
    expr
}

/// The functions that one of these places calls: overloads of one verb, of another with two parameters, or an external one.
fn callees(rng: &mut Rng, places: &[Place]) -> Vec<Fun> {
    let mut made: Vec<Fun> = Vec::new();
    if places.contains(&Place::Overloads) {
        for at in 0..1 + rng.below(3) {
            let ty = INTEGERS[(at + rng.below(2)) % 4].clone();
            let next = declared("쓰다", &[("값", ty.clone())], Some(ty), false);
            if made.iter().all(|other| other.mangled != next.mangled) {
                made.push(next);
            }
        }
    }
    if places.contains(&Place::FirstOfTwo) {
        let with = |ty: Ty| declared("섞다", &[("값", LONG), ("수", ty)], Some(LONG), false);
        made.extend([SHORT, ULONG].map(with));
    }
    if places.contains(&Place::External) {
        let ty = rng.pick(&INTEGERS).clone();
        made.push(external("put", &[("값", ty)], Some(SHORT), rng.flip()));
    }
    made
}

fn variable(rng: &mut Rng) -> Ex {
    name(PARAMETERS[rng.below(3)].0)
}

/// The constant as an operand beside a variable.
fn beside(rng: &mut Rng, expr: Ex, ops: &[u8]) -> Ex {
    let (other, op) = (variable(rng), *rng.pick(ops));
    if rng.flip() { binary(other, op, expr) } else { binary(expr, op, other) }
}

/// Where a constant stands.
#[derive(Clone, Copy, PartialEq)]
enum Place {
    Assigned,
    Constant,
    From,
    Until,
    UntilOfVariable,
    Overloads,
    FirstOfTwo,
    External,
    Operand,
    Condition,
    TypedOnly,
    Cast,
    Returned,
}

const PLACES: [Place; 14] = [
    Place::Assigned,
    Place::Assigned,
    Place::Assigned,
    Place::Constant,
    Place::From,
    Place::Until,
    Place::UntilOfVariable,
    Place::Overloads,
    Place::FirstOfTwo,
    Place::External,
    Place::Operand,
    Place::Condition,
    Place::TypedOnly,
    Place::Cast,
];

/// Statements that put a constant into its place; `at` numbers what they declare.
fn statements(rng: &mut Rng, at: usize, place: Place, expr: Ex) -> Vec<St> {
    let (ty, new) = (rng.pick(&INTEGERS).clone(), format!("수{at}"));
    match place {
        Place::Assigned => vec![declare(&new, ty), init(&new, expr)],
        Place::Constant => vec![constant(&new, expr)],
        Place::From => vec![for_loop(&new, Some(ty), expr, int(9), vec![])],
        Place::Until => vec![for_loop(&new, Some(ty), int(0), expr, vec![])],
        Place::UntilOfVariable => {
            vec![for_loop(PARAMETERS[rng.below(3)].0, None, int(0), expr, vec![])]
        }
        Place::Overloads => vec![init(&new, call_of("쓰다", vec![expr]))],
        Place::FirstOfTwo => {
            let second = if rng.chance(40) { literal(rng, 1) } else { variable(rng) };
            vec![init(&new, call_of("섞다", vec![expr, second]))]
        }
        Place::External => vec![St::Call(call_of("put", vec![expr]))],
        Place::Operand => vec![init(&new, beside(rng, expr, &[ADD, MUL, SHL, SHR, BIT_AND]))],
        Place::Condition => vec![St::If(beside(rng, expr, &[LT, GE, EQ, NE]), vec![], None)],
        Place::TypedOnly => vec![St::Call(expr)],
        Place::Cast => vec![init(&new, cast(expr, ty))],
        Place::Returned => vec![St::Return(expr)],
    }
}

/// A function with these constants, each of which loses bits or not.
fn function(rng: &mut Rng, verb: &str, constants: &[(Place, bool)]) -> Fun {
    let mut body = Vec::new();
    for (at, (place, lose)) in constants.iter().enumerate() {
        let expr = constant_of(rng, *lose);
        body.extend(statements(rng, at, *place, expr));
    }
    let returns = constants.iter().any(|(place, _)| *place == Place::Returned);
    let ret = returns.then(|| rng.pick(&INTEGERS).clone());
    func(verb, &PARAMETERS, ret, body)
}

/// A program of up to four constants in one function or two; with `lose` at least one of them loses bits.
pub fn program(rng: &mut Rng, lose: bool) -> Vec<Fun> {
    let count = 1 + rng.below(4);
    let (sure, cut) = (rng.below(count), 1 + rng.below(count));
    let mut constants: Vec<(Place, bool)> = Vec::new();
    for at in 0..count {
        // What a function returns comes last in it.
        let last = at + 1 == cut || at + 1 == count;
        let place = if last && rng.flip() { Place::Returned } else { *rng.pick(&PLACES) };
        constants.push((place, lose && (at == sure || rng.chance(30))));
    }
    let places: Vec<Place> = constants.iter().map(|constant| constant.0).collect();
    let mut functions = callees(rng, &places);
    let (first, second) = constants.split_at(cut);
    functions.push(function(rng, "하다", first));
    functions.extend((!second.is_empty()).then(|| function(rng, "다하다", second)));
    functions
}

/// For each value the last shift that keeps all bits and the next one: into a short variable, and taken back right beside a short literal, where it
/// converts either way and tells by the type.
pub fn limits() -> Vec<Vec<Fun>> {
    let mut programs = Vec::new();
    for value in KEPT_VALUES.into_iter().chain(VALUES) {
        let wide = i128::from(value);
        let last = (0..128).rev().find(|count| wide << count >> count == wide).unwrap_or(0);
        for count in [last, last + 1] {
            let shift = || binary(int(value), SHL, int(count));
            let back = binary(Ex::Int(5, true, false), ADD, binary(shift(), SHR, int(127)));
            let bodies = [vec![declare("수", SHORT), init("수", shift())], vec![init("수", back)]];
            programs.extend(bodies.map(|body| vec![func("하다", &[], None, body)]));
        }
    }
    programs
}
