//! Constant expressions at and around the limits of folding.

use super::rng::Rng;
use crate::ast::{Ex, Fun, St};
use crate::write::*;

const INTEGER_OPS: [u8; 10] = [BIT_OR, BIT_XOR, BIT_AND, SHL, SHR, ADD, SUB, MUL, DIV, REM];

/// Bits of floats at the limits: 47EFFFFFE0000000 is the largest short one.
pub const FLOAT_BITS: [u64; 24] = [
    0x47EF_FFFF_E000_0000,
    0x47EF_FFFF_E000_0001,
    0x47EF_FFFF_DFFF_FFFF,
    0xC7EF_FFFF_E000_0000,
    0xC7EF_FFFF_E000_0001,
    0x7FEF_FFFF_FFFF_FFFF,
    0xFFEF_FFFF_FFFF_FFFF,
    0x7FF0_0000_0000_0000,
    0xFFF0_0000_0000_0000,
    0x7FF8_0000_0000_0000,
    0x7FF0_0000_0000_0001,
    0xFFF8_1234_5678_9ABC,
    0x0000_0000_0000_0000,
    0x8000_0000_0000_0000,
    0x0000_0000_0000_0001,
    0x8000_0000_0000_0001,
    0x0010_0000_0000_0000,
    0x000F_FFFF_FFFF_FFFF,
    0x3FF0_0000_0000_0000,
    0xBFF0_0000_0000_0000,
    0x3FE0_0000_0000_0000,
    0x4000_0000_0000_0000,
    0x3FB9_9999_9999_999A,
    0x36A0_0000_0000_0000,
];

/// A value at or near a power of two, or a small one.
pub fn integer(rng: &mut Rng) -> i64 {
    match rng.below(6) {
        0 => rng.draw() as i64,
        1 | 2 => rng.below(20) as i64 - 5,
        _ => {
            let power = [31, 32, 63, 64, 30, 62, 16, 8][rng.below(8)];
            let value = (1i128 << power) + rng.below(5) as i128 - 2;
            (if rng.flip() { value } else { -value }) as i64
        }
    }
}

/// A value that an integer type of these marks holds.
pub fn integer_within(rng: &mut Rng, short: bool, unsigned: bool) -> i64 {
    let (least, most) = match (short, unsigned) {
        (true, false) => (i128::from(i32::MIN), i128::from(i32::MAX)),
        (true, true) => (0, i128::from(u32::MAX)),
        (false, false) => (i128::from(i64::MIN), i128::from(i64::MAX)),
        (false, true) => (0, i128::from(i64::MAX)),
    };
    i128::from(integer(rng)).clamp(least, most) as i64
}

fn leaf(rng: &mut Rng) -> Ex {
    Ex::Int(integer(rng), rng.chance(15), rng.chance(15))
}

/// An integer constant of at most this depth, in which every operator of folding may stand.
pub fn integer_constant(rng: &mut Rng, depth: usize) -> Ex {
    if depth == 0 || rng.chance(10) {
        return leaf(rng);
    }
    if rng.chance(20) {
        let op = if rng.chance(5) { NOT } else { [NEG, BIT_NOT][rng.below(2)] };
        return unary(op, integer_constant(rng, depth - 1));
    }
    let op = if rng.chance(3) { [EQ, LT, AND, OR][rng.below(4)] } else { *rng.pick(&INTEGER_OPS) };
    let deep = integer_constant(rng, depth - 1);
    let other = if op == SHL || op == SHR {
        let count =
            if rng.chance(40) { [-1, 0, 1, 126, 127, 128, 129][rng.below(7)] } else { rng.below(130) as i64 };
        int(count)
    } else {
        let shallow = (depth - 1).min(rng.below(3));
        integer_constant(rng, shallow)
    };
    if rng.chance(80) || op == SHL { binary(deep, op, other) } else { binary(other, op, deep) }
}

pub fn float_leaf(rng: &mut Rng) -> Ex {
    let bits = match rng.below(4) {
        0 => rng.draw(),
        1 => ((rng.below(4001) as f64 - 2000.0) / 16.0).to_bits(),
        _ => *rng.pick(&FLOAT_BITS),
    };
    Ex::Float(bits, rng.chance(30))
}

pub fn float_constant(rng: &mut Rng, depth: usize) -> Ex {
    if depth == 0 || rng.chance(15) {
        return float_leaf(rng);
    }
    if rng.chance(15) {
        return unary(NEG, float_constant(rng, depth - 1));
    }
    let op =
        if rng.chance(3) { [REM, EQ, LT, BIT_AND][rng.below(4)] } else { [ADD, SUB, MUL, DIV][rng.below(4)] };
    let deep = float_constant(rng, depth - 1);
    let shallow = (depth - 1).min(rng.below(3));
    let other = float_constant(rng, shallow);
    if rng.flip() { binary(deep, op, other) } else { binary(other, op, deep) }
}

/// A program that puts a few constants into places of a type.
pub fn program(rng: &mut Rng, floats: bool) -> Vec<Fun> {
    let types = if floats { vec![DOUBLE, SINGLE] } else { vec![LONG, SHORT, ULONG, USHORT] };
    let mut body = Vec::new();
    for at in 0..1 + rng.below(3) {
        let ty = rng.pick(&types).clone();
        let depth = rng.below(11);
        let value = if floats { float_constant(rng, depth) } else { integer_constant(rng, depth) };
        let name = format!("수{at}");
        match rng.below(5) {
            0 => body.push(St::Call(value)),
            1 => body.push(init(&name, value)),
            2 if !floats => body.push(for_loop(&name, Some(ty), int(0), value, vec![])),
            _ => body.extend([declare(&name, ty), init(&name, value)]),
        }
    }
    vec![func("세다", &[], None, body)]
}
