//! Short ways to write programs down, for tests and the generator.

use crate::ast::{Ar, Ex, Fun, St, Ty, mangle};
use crate::tree::CAST_VERB;

pub const OR: u8 = 0;
pub const AND: u8 = 1;
pub const BIT_OR: u8 = 2;
pub const BIT_XOR: u8 = 3;
pub const BIT_AND: u8 = 4;
pub const EQ: u8 = 5;
pub const NE: u8 = 6;
pub const LT: u8 = 7;
pub const GE: u8 = 10;
pub const SHL: u8 = 11;
pub const SHR: u8 = 12;
pub const ADD: u8 = 13;
pub const SUB: u8 = 14;
pub const MUL: u8 = 15;
pub const DIV: u8 = 16;
pub const REM: u8 = 17;

pub const NEG: u8 = 0;
pub const BIT_NOT: u8 = 1;
pub const NOT: u8 = 2;

pub const LONG: Ty = Ty::Int { short: false, unsigned: false };
pub const SHORT: Ty = Ty::Int { short: true, unsigned: false };
pub const ULONG: Ty = Ty::Int { short: false, unsigned: true };
pub const USHORT: Ty = Ty::Int { short: true, unsigned: true };
pub const DOUBLE: Ty = Ty::Float { short: false };
pub const SINGLE: Ty = Ty::Float { short: true };

pub fn address(inner: Ty) -> Ty {
    Ty::Address(Box::new(inner))
}

pub fn array(inner: Ty, count: u64) -> Ty {
    Ty::Array(Box::new(inner), count)
}

pub fn custom(name: &str) -> Ty {
    Ty::Custom(name.into())
}

pub fn int(value: i64) -> Ex {
    Ex::Int(value, false, false)
}

pub fn float(value: f64) -> Ex {
    Ex::Float(value.to_bits(), false)
}

pub fn name(text: &str) -> Ex {
    Ex::Name(text.into())
}

pub fn string(text: &str) -> Ex {
    Ex::Str(text.into())
}

pub fn unary(op: u8, operand: Ex) -> Ex {
    Ex::Unary(op, Box::new(operand))
}

pub fn binary(left: Ex, op: u8, right: Ex) -> Ex {
    Ex::Binary(op, Box::new(left), Box::new(right))
}

pub fn value(expr: Ex) -> Ar {
    Ar::Value(expr)
}

pub fn call(verb: &str, args: Vec<Ar>) -> Ex {
    Ex::Call(verb.into(), args)
}

/// A call whose arguments are all values.
pub fn call_of(verb: &str, values: Vec<Ex>) -> Ex {
    call(verb, values.into_iter().map(Ar::Value).collect())
}

pub fn cast(expr: Ex, to: Ty) -> Ex {
    Ex::Call(CAST_VERB.to_vec(), vec![Ar::Value(expr), Ar::Type(to)])
}

pub fn declare(name: &str, ty: Ty) -> St {
    St::Declare(name.into(), ty)
}

pub fn init(name: &str, value: Ex) -> St {
    St::Init(false, name.into(), value)
}

pub fn constant(name: &str, value: Ex) -> St {
    St::Init(true, name.into(), value)
}

pub fn for_loop(name: &str, ty: Option<Ty>, from: Ex, until: Ex, body: Vec<St>) -> St {
    St::For(name.into(), ty, from, until, body)
}

fn parameters(params: &[(&str, Ty)]) -> Vec<(Vec<u8>, Ty)> {
    params.iter().map(|(name, ty)| (name.as_bytes().to_vec(), ty.clone())).collect()
}

/// A function with a body, mangled as Krc's parser does.
pub fn func(name: &str, params: &[(&str, Ty)], ret: Option<Ty>, body: Vec<St>) -> Fun {
    let params = parameters(params);
    let mangled = mangle(name.as_bytes(), &params, false);
    let (external, variadic) = (false, false);
    Fun { name: name.into(), mangled, params, ret, body: Some(body), external, variadic }
}

/// A function without a body, defined in another file.
pub fn declared(name: &str, params: &[(&str, Ty)], ret: Option<Ty>, variadic: bool) -> Fun {
    let mangled = mangle(name.as_bytes(), &parameters(params), variadic);
    Fun { mangled, body: None, variadic, ..func(name, params, ret, Vec::new()) }
}

/// An external function without a body.
pub fn external(name: &str, params: &[(&str, Ty)], ret: Option<Ty>, variadic: bool) -> Fun {
    Fun { mangled: name.into(), external: true, ..declared(name, params, ret, variadic) }
}
