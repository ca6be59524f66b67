//! Calls with type arguments in every place: before, between and behind the values, and beyond the parameters.

use super::constants::{FLOAT_BITS, integer_within};
use super::rng::Rng;
use super::shifts;
use crate::ast::{Ar, Ex, Fun, St, Ty};
use crate::write::*;

const NAMES: [&str; 4] = ["짜다", "감다", "풀다", "넣다"];
const EXTERNAL: [&str; 4] = ["weave", "wind", "unwind", "feed"];
const PLACES: [&str; 5] = ["가", "나", "다", "라", "마"];

/// Floats of both widths, half of all, and types that are not.
fn any_type(rng: &mut Rng) -> Ty {
    let others = [LONG, SHORT, ULONG, USHORT, Ty::Bool, address(Ty::Char)];
    if rng.flip() { [DOUBLE, SINGLE][rng.below(2)].clone() } else { rng.pick(&others).clone() }
}

fn params(rng: &mut Rng) -> Vec<(&'static str, Ty)> {
    (0..rng.below(5)).map(|at| (PLACES[at], any_type(rng))).collect()
}

/// A function to be called, of number `at`. One in five of those with a mangled name has other parameters than its name says: such a
/// call is found by the name, and a value may then stand beside a parameter of any type, or beside none.
fn callee(rng: &mut Rng, at: usize) -> Fun {
    let given = params(rng);
    let ret = rng.chance(60).then(|| any_type(rng));
    let variadic = rng.chance(40);
    if rng.chance(40) {
        return external(EXTERNAL[at], &given, ret, variadic);
    }
    let named = declared(NAMES[at], &given, ret.clone(), variadic);
    if rng.chance(20) {
        return Fun { mangled: named.mangled, ..declared(NAMES[at], &params(rng), ret, variadic) };
    }
    named
}

/// The types that a function's mangled name gives; an external one's parameters.
fn asked(func: &Fun, types: &[Ty]) -> Vec<Ty> {
    if func.external {
        return func.params.iter().map(|(_, ty)| ty.clone()).collect();
    }
    let name = func.mangled.strip_suffix(b"$...").unwrap_or(&func.mangled);
    let keys = name.split(|byte| *byte == b'$').skip(1);
    keys.filter_map(|key| types.iter().find(|ty| crate::ast::key_text(ty) == key).cloned()).collect()
}

struct Caller<'r> {
    rng: &'r mut Rng,
    callees: Vec<Fun>,
    types: Vec<Ty>,
    /// Integers may be left shifts near the limit of 128 bits, half of which lose bits.
    shifting: bool,
}

impl Caller<'_> {
    /// A value of the type, or a literal that fits there.
    fn value(&mut self, ty: &Ty, depth: usize) -> Ex {
        if depth > 0
            && self.rng.chance(25)
            && let Some(call) = self.giving(ty, depth - 1)
        {
            return call;
        }
        let own = self.types.iter().position(|other| other == ty);
        match (ty, own) {
            (Ty::Float { short }, _) if self.rng.chance(60) => {
                let short = if self.rng.flip() { *short } else { self.rng.flip() };
                Ex::Float(
                    [0.5f64.to_bits(), 2.25f64.to_bits(), *self.rng.pick(&FLOAT_BITS)][self.rng.below(3)],
                    short,
                )
            }
            (Ty::Int { .. }, _) if self.shifting && self.rng.flip() => {
                let lose = self.rng.flip();
                shifts::constant_of(self.rng, lose)
            }
            (Ty::Int { short, unsigned }, _) if self.rng.chance(60) => {
                let value = integer_within(self.rng, *short, *unsigned);
                if self.rng.flip() { Ex::Int(value, *short, *unsigned) } else { int(value) }
            }
            (Ty::Bool, _) if self.rng.flip() => Ex::Bool(self.rng.flip()),
            (Ty::Address(_), _) if self.rng.flip() => string("줄"),
            (_, Some(at)) => name(&format!("값{at}")),
            (_, None) => Ex::Null,
        }
    }

    fn giving(&mut self, ty: &Ty, depth: usize) -> Option<Ex> {
        let giving: Vec<Fun> =
            self.callees.iter().filter(|func| func.ret.as_ref() == Some(ty)).cloned().collect();
        (!giving.is_empty()).then(|| {
            let func = self.rng.pick(&giving).clone();
            self.call(&func, depth)
        })
    }

    /// A call with a type in place of every second value, and beyond the parameters of a variadic.
    fn call(&mut self, func: &Fun, depth: usize) -> Ex {
        let mut args = Vec::new();
        for ty in asked(func, &self.types) {
            args.push(if self.rng.chance(45) { Ar::Type(ty) } else { Ar::Value(self.value(&ty, depth)) });
        }
        if func.variadic {
            for _ in 0..self.rng.below(4) {
                let ty = self.rng.pick(&self.types).clone();
                args.push(if self.rng.chance(35) { Ar::Type(ty) } else { Ar::Value(self.value(&ty, depth)) });
            }
        }
        if self.rng.chance(6) {
            let at = self.rng.below(args.len() + 1);
            args.insert(at, Ar::Type(self.rng.pick(&self.types).clone()));
        }
        Ex::Call(func.name.clone(), args)
    }

    fn statement(&mut self, at: usize) -> St {
        let func = self.rng.pick(&self.callees).clone();
        let made = self.call(&func, 2);
        match (&func.ret, self.rng.below(4)) {
            (None, _) | (_, 0) => St::Call(made),
            (Some(Ty::Bool), 1) => St::If(made, vec![], None),
            (Some(ty), 2) if matches!(ty, Ty::Int { .. } | Ty::Float { .. }) => {
                let beside = self.value(ty, 1);
                init(&format!("몫{at}"), binary(made, ADD, beside))
            }
            _ => init(&format!("몫{at}"), made),
        }
    }
}

/// Functions that are called, and one that calls them; it has a parameter of every type. With `shifting` shifts stand among the values.
pub fn program(rng: &mut Rng, shifting: bool) -> Vec<Fun> {
    let types = vec![LONG, SHORT, ULONG, USHORT, DOUBLE, SINGLE, Ty::Bool, address(Ty::Char)];
    let mut functions: Vec<Fun> = (0..1 + rng.below(4)).map(|at| callee(rng, at)).collect();
    let count = 1 + rng.below(5);
    let mut caller = Caller { rng, callees: functions.clone(), types: types.clone(), shifting };
    let body = (0..count).map(|at| caller.statement(at)).collect();
    let names: Vec<String> = (0..types.len()).map(|at| format!("값{at}")).collect();
    let params: Vec<(&str, Ty)> = names.iter().map(String::as_str).zip(types).collect();
    functions.push(func("부르다", &params, None, body));
    functions
}
