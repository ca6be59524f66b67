//! Random programs that convert, or nearly do: expressions are made for the type of their place.

use super::constants::{FLOAT_BITS, integer, integer_within};
use super::rng::Rng;
use crate::ast::{Ar, Ex, Fun, St, Ty};
use crate::write::*;

#[derive(Clone)]
pub(super) struct Variable {
    pub(super) name: String,
    ty: Ty,
    constant: bool,
}

pub struct Maker<'r> {
    pub rng: &'r mut Rng,
    /// The functions that can be called.
    pub(super) functions: Vec<Fun>,
    scopes: Vec<Vec<Variable>>,
    named: usize,
    loops: usize,
    ret: Option<Ty>,
    /// Expressions that may still be made; none left, and only leaves are.
    budget: usize,
    /// Of a thousand expressions or statements, how many are taken without regard to their place.
    wrong: usize,
}

pub fn scalars() -> Vec<Ty> {
    vec![LONG, SHORT, ULONG, USHORT, DOUBLE, SINGLE, Ty::Bool, Ty::Char, Ty::Byte]
}

/// The types that programs use, more than the twelve.
pub fn all_types() -> Vec<Ty> {
    let mut types = scalars();
    types.extend([address(Ty::Char), address(Ty::Null), address(LONG), address(address(SINGLE))]);
    types.extend([
        array(SHORT, 3),
        array(address(Ty::Char), 2),
        array(custom("꼴"), 4),
        custom("꼴"),
        Ty::Null,
    ]);
    types
}

impl<'r> Maker<'r> {
    pub fn new(rng: &'r mut Rng, wrong: usize, budget: usize) -> Self {
        let (functions, scopes) = (Vec::new(), Vec::new());
        Self { rng, functions, scopes, named: 0, loops: 0, ret: None, budget, wrong }
    }

    /// A whole program.
    pub fn program(&mut self) -> Vec<Fun> {
        let count = 1 + self.rng.below(5);
        for at in 0..count {
            let signature = self.signature(at);
            self.functions.push(signature);
        }
        if self.rng.chance(30) {
            self.functions.push(func("main", &[], Some(LONG), Vec::new()));
        }
        if self.rng.chance(40) {
            self.overloads();
        }
        let mut functions = self.functions.clone();
        for func in &mut functions {
            if func.body.is_some() {
                func.body = Some(self.body(func));
            }
        }
        functions
    }

    fn signature(&mut self, at: usize) -> Fun {
        let names = ["가다", "나다", "더하다", "하다", "적다"];
        let types = all_types();
        let params: Vec<(String, Ty)> =
            (0..self.rng.below(4)).map(|i| (format!("값{i}"), self.rng.pick(&types).clone())).collect();
        let params: Vec<(&str, Ty)> = params.iter().map(|(name, ty)| (name.as_str(), ty.clone())).collect();
        let ret = self.rng.chance(60).then(|| self.rng.pick(&scalars()).clone());
        let variadic = self.rng.chance(25);
        match self.rng.below(6) {
            0 => external(["printf", "puts", "sin", "x", ""][at % 5], &params, ret, variadic),
            1 => declared(names[at % 5], &params, ret, variadic),
            2 => Fun { variadic, body: Some(Vec::new()), ..declared(names[at % 5], &params, ret, variadic) },
            3 => Fun {
                body: Some(Vec::new()),
                ..external(["f", "g", "h", "i", "j"][at % 5], &params, ret, variadic)
            },
            _ => func(names[at % 5], &params, ret, Vec::new()),
        }
    }

    /// Functions of one name that differ in a parameter's type.
    fn overloads(&mut self) {
        let mut types = scalars();
        for _ in 0..2 + self.rng.below(3) {
            let ty = types.remove(self.rng.below(types.len()));
            let ret = self.rng.pick(&scalars()).clone();
            let body = vec![];
            self.functions.push(func("재다", &[("것", ty)], Some(ret), body));
        }
    }

    fn body(&mut self, func: &Fun) -> Vec<St> {
        let named = |(name, ty): &(Vec<u8>, Ty)| Variable {
            name: String::from_utf8(name.clone()).unwrap_or_default(),
            ty: ty.clone(),
            constant: false,
        };
        self.scopes = vec![func.params.iter().map(named).collect()];
        self.ret = func.ret.clone();
        let count = 1 + self.rng.below(7);
        let mut body = self.statements(count, 3);
        if let Some(ret) = func.ret.clone() {
            self.scopes.push(Vec::new());
            body.push(self.last_return(&ret));
        }
        body
    }

    fn last_return(&mut self, ret: &Ty) -> St {
        if self.rng.chance(25) {
            let condition = self.expr(&Ty::Bool, 2, false);
            let (then, otherwise) = (self.expr(ret, 2, true), self.expr(ret, 2, true));
            return St::If(condition, vec![St::Return(then)], Some(vec![St::Return(otherwise)]));
        }
        St::Return(self.expr(ret, 2, true))
    }

    fn statements(&mut self, count: usize, depth: usize) -> Vec<St> {
        self.scopes.push(Vec::new());
        let block = (0..count).map(|_| self.statement(depth)).collect();
        self.scopes.pop();
        block
    }

    fn block(&mut self, depth: usize) -> Vec<St> {
        let count = if self.budget == 0 { 0 } else { self.rng.below(4) };
        self.statements(count, depth)
    }

    fn fresh(&mut self, ty: &Ty, constant: bool) -> Vec<u8> {
        self.named += 1;
        let name = format!("변{}", self.named);
        let variable = Variable { name: name.clone(), ty: ty.clone(), constant };
        self.scopes.last_mut().expect("a block is open").push(variable);
        name.into_bytes()
    }

    pub fn statement(&mut self, depth: usize) -> St {
        if self.rng.below(1000) < self.wrong {
            return self.odd_statement();
        }
        match self.rng.below(if depth == 0 { 10 } else { 16 }) {
            0 | 1 => {
                let types: Vec<Ty> =
                    all_types().into_iter().filter(|ty| !matches!(ty, Ty::Custom(_))).collect();
                let ty = self.rng.pick(&types).clone();
                St::Declare(self.fresh(&ty, false), ty)
            }
            2..=4 => self.new_init(),
            5 | 6 => self.assign(),
            7 => self.call_statement(),
            8 => self.only_typed(),
            9 => self.leave(),
            10 | 11 => self.if_statement(depth - 1),
            12 | 13 => {
                let condition = self.expr(&Ty::Bool, 3, false);
                St::While(condition, self.loop_block(depth - 1))
            }
            _ => self.for_statement(depth - 1),
        }
    }

    fn if_statement(&mut self, depth: usize) -> St {
        let condition = self.expr(&Ty::Bool, 3, false);
        let then = self.block(depth);
        let otherwise = self.rng.flip().then(|| self.block(depth));
        St::If(condition, then, otherwise)
    }

    fn new_init(&mut self) -> St {
        let ty = self.makeable();
        let value = self.expr(&ty, 3, false);
        let constant = self.rng.chance(30);
        let kept = if ty == Ty::Null { address(Ty::Null) } else { ty };
        St::Init(constant, self.fresh(&kept, constant), value)
    }

    /// A type of which there is an expression.
    fn makeable(&mut self) -> Ty {
        let known: Vec<Ty> = self.variables().map(|variable| variable.ty.clone()).collect();
        if !known.is_empty() && self.rng.chance(25) {
            return self.rng.pick(&known).clone();
        }
        let mut types = scalars();
        types.extend([address(Ty::Char), address(Ty::Null), address(LONG), Ty::Null]);
        self.rng.pick(&types).clone()
    }

    pub(super) fn variables(&self) -> impl Iterator<Item = &Variable> {
        self.scopes.iter().flatten()
    }

    fn assign(&mut self) -> St {
        let targets: Vec<Variable> =
            self.variables().filter(|v| !v.constant && v.ty != Ty::Null).cloned().collect();
        if targets.is_empty() {
            return self.new_init();
        }
        let target = self.rng.pick(&targets).clone();
        let value = self.expr(&target.ty, 3, true);
        St::Init(false, target.name.into_bytes(), value)
    }

    fn call_statement(&mut self) -> St {
        let at = self.rng.below(self.functions.len());
        let func = self.functions[at].clone();
        match self.arguments(&func, 2) {
            Some(args) => St::Call(Ex::Call(func.name, args)),
            None => self.only_typed(),
        }
    }

    fn only_typed(&mut self) -> St {
        if self.rng.chance(20) {
            return St::Call(Ex::SizeOf(self.rng.pick(&all_types()).clone()));
        }
        let ty = self.rng.pick(&scalars()).clone();
        match self.expr(&ty, 2, false) {
            call @ Ex::Call(..) => St::Call(unary(NOT, binary(call.clone(), EQ, call))),
            other => St::Call(other),
        }
    }

    fn leave(&mut self) -> St {
        match (self.loops > 0, self.ret.clone()) {
            (true, _) if self.rng.chance(70) => [St::Break, St::Continue][self.rng.below(2)].clone(),
            (_, Some(ret)) => St::Return(self.expr(&ret, 2, true)),
            _ => self.new_init(),
        }
    }

    fn loop_block(&mut self, depth: usize) -> Vec<St> {
        self.loops += 1;
        let block = self.block(depth);
        self.loops -= 1;
        block
    }

    fn for_statement(&mut self, depth: usize) -> St {
        let integer = |ty: &Ty| matches!(ty, Ty::Int { .. });
        let known: Vec<Variable> =
            self.variables().filter(|v| !v.constant && integer(&v.ty)).cloned().collect();
        if !known.is_empty() && self.rng.chance(40) {
            let variable = self.rng.pick(&known).clone();
            let (from, until) = (self.expr(&variable.ty, 2, true), self.expr(&variable.ty, 2, true));
            return St::For(variable.name.into_bytes(), None, from, until, self.loop_block(depth));
        }
        let ty = [LONG, SHORT, ULONG, USHORT][self.rng.below(4)].clone();
        let (from, until) = (self.expr(&ty, 2, true), self.expr(&ty, 2, true));
        self.scopes.push(Vec::new());
        let name = self.fresh(&ty, false);
        let body = self.loop_block(depth);
        self.scopes.pop();
        St::For(name, Some(ty), from, until, body)
    }

    /// An expression of type `ty`; where `fit` is set, one of another type that fits there too.
    pub fn expr(&mut self, ty: &Ty, depth: usize, fit: bool) -> Ex {
        if self.rng.below(1000) < self.wrong {
            return self.odd_expr();
        }
        self.right(ty, depth, fit)
    }

    pub(super) fn right(&mut self, ty: &Ty, depth: usize, fit: bool) -> Ex {
        let depth = if self.budget == 0 { 0 } else { depth };
        self.budget = self.budget.saturating_sub(1);
        let leafless = matches!(ty, Ty::Array(..) | Ty::Custom(_) | Ty::Char | Ty::Byte);
        if (leafless || self.rng.chance(35))
            && let Some(name) = self.variable(ty)
        {
            return name;
        }
        if depth > 0
            && (leafless || self.rng.chance(20))
            && let Some(call) = self.call_giving(ty, depth - 1)
        {
            return call;
        }
        match ty {
            Ty::Int { short, unsigned } => self.int_expr(*short, *unsigned, depth, fit),
            Ty::Float { short } => self.float_expr(*short, depth, fit),
            Ty::Bool => self.bool_expr(depth),
            Ty::Address(inner) => self.address_expr(inner, fit),
            Ty::Null => Ex::Null,
            // Of an array or a Custom there are only variables and results.
            Ty::Array(..) | Ty::Custom(_) => Ex::Name("없다".into()),
            Ty::Char | Ty::Byte => self.cast_to(ty, depth),
        }
    }

    fn variable(&mut self, ty: &Ty) -> Option<Ex> {
        let known: Vec<String> = self.variables().filter(|v| v.ty == *ty).map(|v| v.name.clone()).collect();
        (!known.is_empty()).then(|| name(self.rng.pick(&known).as_str()))
    }

    fn call_giving(&mut self, ty: &Ty, depth: usize) -> Option<Ex> {
        let giving: Vec<Fun> =
            self.functions.iter().filter(|func| func.ret.as_ref() == Some(ty)).cloned().collect();
        if giving.is_empty() {
            return None;
        }
        let func = self.rng.pick(&giving).clone();
        let args = self.arguments(&func, depth)?;
        Some(Ex::Call(func.name, args))
    }

    /// Arguments for a function; `None` if some parameter's type has no expression here.
    fn arguments(&mut self, func: &Fun, depth: usize) -> Option<Vec<Ar>> {
        let mut args = Vec::new();
        for (_, ty) in &func.params {
            let scarce = matches!(ty, Ty::Array(..) | Ty::Custom(_));
            if scarce && self.variable(ty).is_none() {
                return None;
            }
            if self.rng.chance(4) {
                args.push(Ar::Type(ty.clone()));
                continue;
            }
            let fit = func.external || self.rng.chance(8);
            args.push(Ar::Value(self.expr(ty, depth, fit)));
        }
        if func.variadic {
            for _ in 0..self.rng.below(4) {
                let ty = self.rng.pick(&scalars()).clone();
                args.push(Ar::Value(self.expr(&ty, depth, false)));
            }
        }
        Some(args)
    }

    fn cast_to(&mut self, ty: &Ty, depth: usize) -> Ex {
        let from = self.rng.pick(&[LONG, SHORT, DOUBLE, SINGLE, Ty::Bool]).clone();
        let source = self.expr(&from, depth.saturating_sub(1), false);
        let mut args = vec![Ar::Value(source), Ar::Type(ty.clone())];
        if self.rng.chance(20) {
            args.reverse();
        }
        if self.rng.chance(10) {
            args.push(Ar::Value(self.expr(&DOUBLE, 1, false)));
        }
        call("바꾸다", args)
    }

    fn int_literal(&mut self, short: bool, unsigned: bool, fit: bool) -> Ex {
        if fit && self.rng.flip() {
            let value = integer_within(self.rng, short, unsigned);
            let (s, u) = (self.rng.chance(20), self.rng.chance(20));
            return Ex::Int(value, s, u);
        }
        Ex::Int(integer(self.rng), short, unsigned)
    }

    fn int_expr(&mut self, short: bool, unsigned: bool, depth: usize, fit: bool) -> Ex {
        let ty = Ty::Int { short, unsigned };
        if depth == 0 || self.rng.chance(30) {
            if ty == ULONG && self.rng.chance(40) {
                let sized: Vec<Ty> =
                    scalars().into_iter().chain([address(Ty::Char), array(SHORT, 3)]).collect();
                return Ex::SizeOf(self.rng.pick(&sized).clone());
            }
            return self.int_literal(short, unsigned, fit);
        }
        match self.rng.below(8) {
            0 => unary([NEG, BIT_NOT][self.rng.below(2)], self.expr(&ty, depth - 1, false)),
            1 => self.cast_to(&ty, depth),
            2 if self.variable(&ty).is_some() => {
                let literal = self.int_literal(short, unsigned, true);
                let right = self.variable(&ty).unwrap_or(Ex::Null);
                binary(literal, SUB, right)
            }
            _ => {
                let ops = [BIT_OR, BIT_XOR, BIT_AND, SHL, SHR, ADD, SUB, MUL, DIV, REM];
                let op = *self.rng.pick(&ops);
                let (left, right) = (self.expr(&ty, depth - 1, false), self.expr(&ty, depth - 1, true));
                binary(left, op, right)
            }
        }
    }

    fn float_expr(&mut self, short: bool, depth: usize, fit: bool) -> Ex {
        let ty = Ty::Float { short };
        if depth == 0 || self.rng.chance(40) {
            if fit && self.rng.flip() {
                let value = (self.rng.below(400) as f64 - 200.0) / 8.0;
                return Ex::Float(value.to_bits(), self.rng.flip());
            }
            let bits = *self.rng.pick(&FLOAT_BITS);
            return Ex::Float(bits, short);
        }
        match self.rng.below(6) {
            0 => unary(NEG, self.expr(&ty, depth - 1, false)),
            1 => self.cast_to(&ty, depth),
            _ => {
                let op = [ADD, SUB, MUL, DIV][self.rng.below(4)];
                let (left, right) = (self.expr(&ty, depth - 1, false), self.expr(&ty, depth - 1, true));
                binary(left, op, right)
            }
        }
    }

    fn bool_expr(&mut self, depth: usize) -> Ex {
        if depth == 0 || self.rng.chance(15) {
            return Ex::Bool(self.rng.flip());
        }
        match self.rng.below(8) {
            0 => unary(NOT, self.expr(&Ty::Bool, depth - 1, false)),
            1..=4 => {
                let (left, right) =
                    (self.expr(&Ty::Bool, depth - 1, false), self.expr(&Ty::Bool, depth - 1, false));
                binary(left, [AND, OR][self.rng.below(2)], right)
            }
            5 => {
                let ty = self.makeable();
                let (left, right) = (self.expr(&ty, depth - 1, false), self.expr(&ty, depth - 1, true));
                binary(left, [EQ, NE][self.rng.below(2)], right)
            }
            _ => {
                let ty = [LONG, SHORT, ULONG, USHORT, DOUBLE, SINGLE][self.rng.below(6)].clone();
                let (left, right) = (self.expr(&ty, depth - 1, false), self.expr(&ty, depth - 1, true));
                binary(left, LT + self.rng.below(4) as u8, right)
            }
        }
    }

    fn address_expr(&mut self, inner: &Ty, fit: bool) -> Ex {
        let ty = address(inner.clone());
        if fit && self.rng.chance(30) {
            return Ex::Null;
        }
        if fit
            && self.rng.chance(30)
            && let Some(any) = self.variable(&address(Ty::Null))
        {
            return any;
        }
        if *inner == Ty::Char && self.rng.chance(80) {
            let texts: [&[u8]; 6] = ["글".as_bytes(), b"%ld\n", b"", b"a", b"\xFF\x00", b"ab"];
            return Ex::Str(self.rng.pick(&texts).to_vec());
        }
        let source = if self.rng.flip() { Ex::Null } else { string("주소") };
        cast(source, ty)
    }
}
