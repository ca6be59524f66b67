//! Programs as plain Rust values, and how they are laid out as a tree of records and a text.

use crate::judge::FIRST_TYPES;
use crate::tree::*;

#[derive(Clone, Debug, PartialEq, Eq)]
pub enum Ty {
    Int { short: bool, unsigned: bool },
    Float { short: bool },
    Bool,
    Char,
    Byte,
    Address(Box<Ty>),
    Array(Box<Ty>, u64),
    Custom(Vec<u8>),
    Null,
}

#[derive(Clone, Debug)]
pub enum Ex {
    Int(i64, bool, bool),
    /// Bits and short mark.
    Float(u64, bool),
    Str(Vec<u8>),
    Bool(bool),
    Name(Vec<u8>),
    Null,
    SizeOf(Ty),
    Unary(u8, Box<Ex>),
    Binary(u8, Box<Ex>, Box<Ex>),
    Call(Vec<u8>, Vec<Ar>),
}

#[derive(Clone, Debug)]
pub enum Ar {
    Value(Ex),
    Type(Ty),
}

#[derive(Clone, Debug)]
pub enum St {
    Declare(Vec<u8>, Ty),
    Init(bool, Vec<u8>, Ex),
    Return(Ex),
    Call(Ex),
    If(Ex, Vec<St>, Option<Vec<St>>),
    While(Ex, Vec<St>),
    For(Vec<u8>, Option<Ty>, Ex, Ex, Vec<St>),
    Break,
    Continue,
}

#[derive(Clone, Debug)]
pub struct Fun {
    pub name: Vec<u8>,
    pub mangled: Vec<u8>,
    pub params: Vec<(Vec<u8>, Ty)>,
    pub ret: Option<Ty>,
    pub body: Option<Vec<St>>,
    pub external: bool,
    pub variadic: bool,
}

/// The key text that the Rust prints for a type.
pub fn key_text(ty: &Ty) -> Vec<u8> {
    match ty {
        Ty::Int { short, unsigned } => {
            let (u, s) = (if *unsigned { "u" } else { "" }, if *short { "32" } else { "" });
            format!("{u}int{s}").into_bytes()
        }
        Ty::Float { short } => format!("float{}", if *short { "32" } else { "" }).into_bytes(),
        Ty::Bool => b"bool".to_vec(),
        Ty::Char => b"char".to_vec(),
        Ty::Byte => b"byte".to_vec(),
        Ty::Address(inner) => [key_text(inner), b"&".to_vec()].concat(),
        Ty::Array(inner, count) => [key_text(inner), format!("[{count}]").into_bytes()].concat(),
        Ty::Custom(name) => name.clone(),
        Ty::Null => b"null".to_vec(),
    }
}

/// A verb with `$` and key text for each parameter, and `$...` for a variadic.
pub fn mangle(name: &[u8], params: &[(Vec<u8>, Ty)], variadic: bool) -> Vec<u8> {
    let mut text = name.to_vec();
    for (_, ty) in params {
        text.push(b'$');
        text.extend(key_text(ty));
    }
    if variadic {
        text.extend(b"$...");
    }
    text
}

/// A tree being laid out: types first, then every record after those that it refers to.
#[derive(Clone, Default)]
pub struct Layout {
    pub records: Vec<Record>,
    pub text: Vec<u8>,
    /// The types by record, the twelve first.
    pub types: Vec<Ty>,
    /// Takes an equal text that stands in the buffer already, where set.
    pub share_texts: bool,
    /// Writes a list's cells between its items, last first, where set; else after them.
    pub interleave: bool,
    /// Key texts other than `key_text`, by type record.
    pub keys: Vec<(usize, Vec<u8>)>,
    /// Types that nothing need refer to.
    pub extra_types: Vec<Ty>,
    /// How many statements, expressions, functions and parameters were met: each takes a span that
    /// tells its number, so that a person can name it.
    pub met: [u32; 4],
}

pub const STATEMENT: usize = 0;
pub const EXPRESSION: usize = 1;
pub const FUNCTION_SPAN: usize = 2;
pub const PARAMETER: usize = 3;
/// Spans of a group start at its number times this.
pub const GROUP: u32 = 100_000;

impl Layout {
    pub fn program(functions: &[Fun]) -> Self {
        let mut layout = Self::default();
        layout.add(functions);
        layout
    }

    pub fn add(&mut self, functions: &[Fun]) {
        self.first_types();
        for ty in self.extra_types.clone() {
            self.ty(&ty);
        }
        functions.iter().for_each(|func| self.types_of_function(func));
        self.type_records();
        for func in functions {
            self.function(func);
        }
    }

    pub fn tree(&self) -> Vec<u8> {
        self.records.iter().flat_map(|record| record.bytes()).collect()
    }

    fn first_types(&mut self) {
        let int = |short, unsigned| Ty::Int { short, unsigned };
        self.types = vec![
            int(false, false),
            int(true, false),
            int(false, true),
            int(true, true),
            Ty::Float { short: false },
            Ty::Float { short: true },
            Ty::Bool,
            Ty::Char,
            Ty::Byte,
            Ty::Null,
            Ty::Address(Box::new(Ty::Char)),
            Ty::Address(Box::new(Ty::Null)),
        ];
        assert_eq!(self.types.len(), FIRST_TYPES.len());
    }

    /// The record of a type, made if new; its inner type comes before it.
    pub fn ty(&mut self, ty: &Ty) -> u32 {
        if let Some(at) = self.types.iter().position(|other| other == ty) {
            return at as u32;
        }
        assert!(self.records.is_empty(), "types come first");
        if let Ty::Address(inner) | Ty::Array(inner, _) = ty {
            self.ty(inner);
        }
        self.types.push(ty.clone());
        self.types.len() as u32 - 1
    }

    fn type_records(&mut self) {
        for (at, ty) in self.types.clone().iter().enumerate() {
            let given = self.keys.iter().find(|(key, _)| *key == at);
            let key = given.map_or_else(|| key_text(ty), |(_, text)| text.clone());
            let (d, e) = self.text(&key);
            let record = match ty {
                Ty::Int { short, unsigned } => (1 + 16 * u8::from(*short) + 32 * u8::from(*unsigned), [0; 3]),
                Ty::Float { short } => (2 + 16 * u8::from(*short), [0; 3]),
                Ty::Bool => (3, [0; 3]),
                Ty::Char => (4, [0; 3]),
                Ty::Byte => (5, [0; 3]),
                Ty::Address(inner) => (6, [self.ty(inner), 0, 0]),
                Ty::Array(inner, count) => (7, [self.ty(inner), *count as u32, (*count >> 32) as u32]),
                Ty::Custom(name) => {
                    let (a, b) = self.text(name);
                    (8, [a, b, 0])
                }
                Ty::Null => (9, [0; 3]),
            };
            let (detail, [a, b, c]) = record;
            self.records.push(Record::new(TYPE, detail, [a, b, c, d, e]));
        }
    }

    pub fn text(&mut self, bytes: &[u8]) -> (u32, u32) {
        let length = bytes.len() as u32;
        if self.share_texts && length > 0 {
            let found = self.text.windows(bytes.len()).position(|window| window == bytes);
            if let Some(at) = found {
                return (at as u32, length);
            }
        }
        self.text.extend(bytes);
        ((self.text.len() - bytes.len()) as u32, length)
    }

    pub fn push(&mut self, kind: u8, detail: u8, words: &[u32], span: u32) -> u32 {
        let mut all = [0; 5];
        all[..words.len()].copy_from_slice(words);
        let record = Record { start: span, end: span + 1, ..Record::new(kind, detail, all) };
        self.records.push(record);
        self.records.len() as u32 - 1
    }

    fn meet(&mut self, group: usize) -> u32 {
        self.met[group] += 1;
        (group as u32 + 1) * GROUP + self.met[group] - 1
    }

    /// A list of `count` items, each written by `item`.
    pub fn list(&mut self, count: usize, mut item: impl FnMut(&mut Self, usize) -> u32) -> u32 {
        let mut rest = NONE;
        if self.interleave {
            for at in (0..count).rev() {
                let written = item(self, at);
                rest = self.push(LIST, 0, &[written, rest], 0);
            }
        } else {
            let items: Vec<u32> = (0..count).map(|at| item(self, at)).collect();
            for written in items.into_iter().rev() {
                rest = self.push(LIST, 0, &[written, rest], 0);
            }
        }
        rest
    }

    fn name(&mut self, bytes: &[u8]) -> u32 {
        let (a, b) = self.text(bytes);
        self.push(NAME, 0, &[a, b], 0)
    }

    pub fn function(&mut self, func: &Fun) -> u32 {
        let span = self.meet(FUNCTION_SPAN);
        let (name, mangled) = (self.name(&func.name), self.name(&func.mangled));
        let params = self.list(func.params.len(), |layout, at| {
            let (name, ty) = &func.params[at];
            let (span, (a, b), c) = (layout.meet(PARAMETER), layout.text(name), layout.ty(ty));
            layout.push(VARIABLE, 0, &[a, b, c], span)
        });
        let ret = func.ret.as_ref().map_or(NONE, |ty| self.ty(ty));
        let body = func.body.as_ref().map_or(NONE, |body| self.block(body));
        let detail =
            u8::from(func.external) + 2 * u8::from(func.variadic) + 4 * u8::from(func.body.is_some());
        self.push(FUNCTION, detail, &[name, mangled, params, ret, body], span)
    }

    pub fn block(&mut self, block: &[St]) -> u32 {
        self.list(block.len(), |layout, at| layout.statement(&block[at]))
    }

    pub fn statement(&mut self, statement: &St) -> u32 {
        let span = self.meet(STATEMENT);
        match statement {
            St::Declare(name, ty) => {
                let ((a, b), c) = (self.text(name), self.ty(ty));
                self.push(DECLARE, 0, &[a, b, c], span)
            }
            St::Init(constant, name, value) => {
                let ((a, b), c) = (self.text(name), self.expr(value));
                self.push(INIT, u8::from(*constant), &[a, b, c], span)
            }
            St::Return(value) => {
                let a = self.expr(value);
                self.push(RETURN, 0, &[a], span)
            }
            St::Call(call) => {
                let a = self.expr(call);
                self.push(CALL_STATEMENT, 0, &[a], span)
            }
            St::If(condition, then, otherwise) => {
                let (a, b) = (self.expr(condition), self.block(then));
                let c = otherwise.as_ref().map_or(NONE, |block| self.block(block));
                self.push(IF, u8::from(otherwise.is_some()), &[a, b, c], span)
            }
            St::While(condition, body) => {
                let (a, b) = (self.expr(condition), self.block(body));
                self.push(WHILE, 0, &[a, b], span)
            }
            St::For(name, ty, from, until, body) => {
                let (text, ty) = (self.text(name), ty.as_ref().map_or(NONE, |ty| self.ty(ty)));
                let a = self.push(VARIABLE, 0, &[text.0, text.1, ty], 0);
                let (b, c, d) = (self.expr(from), self.expr(until), self.block(body));
                self.push(FOR, 0, &[a, b, c, d], span)
            }
            St::Break => self.push(BREAK, 0, &[], span),
            St::Continue => self.push(CONTINUE, 0, &[], span),
        }
    }

    pub fn expr(&mut self, expr: &Ex) -> u32 {
        let span = self.meet(EXPRESSION);
        let halves = |value: u64| [value as u32, (value >> 32) as u32];
        match expr {
            Ex::Int(value, short, unsigned) => {
                let detail = u8::from(*short) + 2 * u8::from(*unsigned);
                self.push(INT, detail, &halves(*value as u64), span)
            }
            Ex::Float(bits, short) => self.push(FLOAT, u8::from(*short), &halves(*bits), span),
            Ex::Str(text) | Ex::Name(text) => {
                let (a, b) = self.text(text);
                let kind = if matches!(expr, Ex::Str(_)) { STR } else { NAME };
                self.push(kind, 0, &[a, b], span)
            }
            Ex::Bool(value) => self.push(BOOL, u8::from(*value), &[], span),
            Ex::Null => self.push(NULL, 0, &[], span),
            Ex::SizeOf(ty) => {
                let a = self.ty(ty);
                self.push(SIZE_OF, 0, &[a], span)
            }
            Ex::Unary(op, operand) => {
                let a = self.expr(operand);
                self.push(UNARY, *op, &[a], span)
            }
            Ex::Binary(op, left, right) => {
                let (a, b) = (self.expr(left), self.expr(right));
                self.push(BINARY, *op, &[a, b], span)
            }
            Ex::Call(verb, args) => {
                let (a, b) = self.text(verb);
                let c = self.list(args.len(), |layout, at| layout.argument(&args[at]));
                self.push(CALL, 0, &[a, b, c], span)
            }
        }
    }

    fn argument(&mut self, argument: &Ar) -> u32 {
        match argument {
            Ar::Value(value) => {
                let a = self.expr(value);
                self.push(VALUE, 0, &[a], 0)
            }
            Ar::Type(ty) => {
                let a = self.ty(ty);
                self.push(TYPE_ARGUMENT, 0, &[a], 0)
            }
        }
    }

    fn types_of_function(&mut self, func: &Fun) {
        for (_, ty) in &func.params {
            self.ty(ty);
        }
        func.ret.iter().for_each(|ty| _ = self.ty(ty));
        func.body.iter().for_each(|body| self.types_of_block(body));
    }

    fn types_of_block(&mut self, block: &[St]) {
        for statement in block {
            match statement {
                St::Declare(_, ty) => _ = self.ty(ty),
                St::Init(_, _, value) | St::Return(value) | St::Call(value) => self.types_of(value),
                St::If(condition, then, otherwise) => {
                    self.types_of(condition);
                    self.types_of_block(then);
                    otherwise.iter().for_each(|block| self.types_of_block(block));
                }
                St::While(condition, body) => {
                    self.types_of(condition);
                    self.types_of_block(body);
                }
                St::For(_, ty, from, until, body) => {
                    ty.iter().for_each(|ty| _ = self.ty(ty));
                    self.types_of(from);
                    self.types_of(until);
                    self.types_of_block(body);
                }
                St::Break | St::Continue => {}
            }
        }
    }

    fn types_of(&mut self, expr: &Ex) {
        match expr {
            Ex::SizeOf(ty) => _ = self.ty(ty),
            Ex::Unary(_, operand) => self.types_of(operand),
            Ex::Binary(_, left, right) => {
                self.types_of(left);
                self.types_of(right);
            }
            Ex::Call(_, args) => {
                for arg in args {
                    match arg {
                        Ar::Value(value) => self.types_of(value),
                        Ar::Type(ty) => _ = self.ty(ty),
                    }
                }
            }
            _ => {}
        }
    }
}
