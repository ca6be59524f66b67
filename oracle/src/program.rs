//! From a judged tree to the `Program` that Krc's converter takes.

use crate::lexer::span::Span;
use crate::parser::parser_token::Particle;
use crate::parser::postparser::structs::{
    Argument, BinaryOp, Declare, Expr, ExprKind, For, Function, If, Init, Param, Program, Statement,
    StatementKind, Type, UnaryOp, While,
};
use crate::tree::*;

pub const UNARY_OPS: [UnaryOp; 3] = [UnaryOp::Neg, UnaryOp::BitNot, UnaryOp::Not];

pub const BINARY_OPS: [BinaryOp; 18] = [
    BinaryOp::Or,
    BinaryOp::And,
    BinaryOp::BitOr,
    BinaryOp::BitXor,
    BinaryOp::BitAnd,
    BinaryOp::Eq,
    BinaryOp::NotEq,
    BinaryOp::Lt,
    BinaryOp::Le,
    BinaryOp::Gt,
    BinaryOp::Ge,
    BinaryOp::Shl,
    BinaryOp::Shr,
    BinaryOp::Add,
    BinaryOp::Sub,
    BinaryOp::Mul,
    BinaryOp::Div,
    BinaryOp::Rem,
];

/// Marks the symbol handed in for a function whose mangled name is never looked up; no text of a
/// tree gives this character.
const SYMBOL_MARK: char = '\u{10FFFF}';

/// Any bytes as a Rust string. Texts need not be UTF-8, so each byte becomes the character of its
/// number, except that the cast's verb stays itself wherever it stands, for Krc compares with it.
/// Equal bytes give equal strings and unequal ones unequal strings; the verb's bytes hold no `$`,
/// so joining at a `$` may be done before or after; ASCII texts are unchanged and others not ASCII.
pub fn encode(bytes: &[u8]) -> String {
    let mut text = String::with_capacity(bytes.len());
    let mut rest = bytes;
    while let Some(first) = rest.first() {
        if rest.starts_with(&CAST_VERB) {
            text.push_str(std::str::from_utf8(&CAST_VERB).expect("the verb is UTF-8"));
            rest = &rest[CAST_VERB.len()..];
        } else {
            text.push(char::from(*first));
            rest = &rest[1..];
        }
    }
    text
}

/// What `Type::size` would give without bounds, saturating; `None` where it has no answer.
pub fn exact_size(tree: &Tree, ty: u32) -> Option<u128> {
    let record = tree.at(ty);
    Some(match record.detail {
        1 | 33 | 2 | 6 => 8,
        17 | 49 | 18 => 4,
        3..=5 => 1,
        7 => exact_size(tree, record.a())?.saturating_mul(u128::from(record.count())),
        _ => return None,
    })
}

/// Whether some size on the way to that of `ty` leaves 64 bits.
fn size_wraps(tree: &Tree, ty: u32) -> bool {
    let record = tree.at(ty);
    record.detail == 7
        && (size_wraps(tree, record.a())
            || exact_size(tree, ty).is_some_and(|size| size > u128::from(u64::MAX)))
}

/// Whether a SizeOf of `ty` is number 27.
pub fn size_refused(tree: &Tree, ty: u32) -> bool {
    exact_size(tree, ty).is_none_or(|size| size > i64::MAX as u128)
}

pub struct Build<'t> {
    pub tree: &'t Tree<'t>,
    /// The type of each type record.
    pub types: Vec<Type>,
}

impl<'t> Build<'t> {
    pub fn new(tree: &'t Tree<'t>) -> Self {
        let mut types: Vec<Type> = Vec::new();
        for record in tree.records.iter().take_while(|record| record.kind == TYPE) {
            let inner = |types: &[Type]| Box::new(types[record.a() as usize].clone());
            types.push(match record.detail {
                1 | 17 | 33 | 49 => {
                    Type::Int { short: record.detail & 16 != 0, unsigned: record.detail & 32 != 0 }
                }
                2 | 18 => Type::Float { short: record.detail & 16 != 0 },
                3 => Type::Bool,
                4 => Type::Char,
                5 => Type::Byte,
                6 => Type::Address(inner(&types)),
                7 => Type::Array(inner(&types), record.count() as usize),
                8 => Type::Custom(encode(tree.slice(record.a(), record.b()))),
                _ => Type::Null,
            });
        }
        Self { tree, types }
    }

    /// The key text of each type.
    pub fn key_texts(&self) -> Vec<(Type, String)> {
        let records = self.tree.records.iter();
        let keys = records.map(|record| encode(self.tree.slice(record.d(), record.e())));
        self.types.iter().cloned().zip(keys).collect()
    }

    /// The record of a type; conversion makes no type that the tree lacks.
    pub fn type_record(&self, ty: &Type) -> Option<u32> {
        self.types.iter().position(|other| other == ty).map(|at| at as u32)
    }

    pub fn ty(&self, record: u32) -> Type {
        self.types[record as usize].clone()
    }

    fn optional_ty(&self, record: u32) -> Option<Type> {
        (record != NONE).then(|| self.ty(record))
    }

    /// A span whose start holds the record number too, so that an error tells its record.
    fn span(&self, record: u32) -> Span {
        let own = self.tree.at(record);
        Span::new((record as usize) << 32 | own.start as usize, own.end as usize)
    }

    fn text(&self, record: u32) -> String {
        encode(self.tree.own_text(record))
    }

    pub fn program(&self) -> Program {
        Program { functions: self.tree.of_kind(FUNCTION).map(|record| self.function(record)).collect() }
    }

    /// The mangled name handed to Krc. That of an external function or of `main` is never a key of
    /// Krc's map, only its symbol, and may be another function's: there a name of our own tells the
    /// record. Among the others the mangled name is unique, or the program is refused.
    pub fn symbol(&self, record: u32) -> String {
        let own = self.tree.at(record);
        if own.detail & 1 != 0 || self.tree.own_text(own.a()) == b"main" {
            format!("{SYMBOL_MARK}{record}")
        } else {
            self.text(own.b())
        }
    }

    fn function(&self, record: u32) -> Function {
        let own = self.tree.at(record);
        let params = self.tree.items(own.c());
        Function {
            name: self.text(own.a()),
            mangled_name: self.symbol(record),
            span: self.span(record),
            return_type: self.optional_ty(own.d()),
            params: params.iter().map(|param| self.param(*param)).collect(),
            variadic: own.detail & 2 != 0,
            body: (own.detail & 4 != 0).then(|| self.block(own.e())),
            external: own.detail & 1 != 0,
        }
    }

    fn param(&self, record: u32) -> Param {
        let ty = self.ty(self.tree.at(record).c());
        Param { ty, name: self.text(record), span: self.span(record) }
    }

    fn block(&self, list: u32) -> Vec<Statement> {
        self.tree.items(list).iter().map(|item| self.statement(*item)).collect()
    }

    fn statement(&self, record: u32) -> Statement {
        let own = self.tree.at(record);
        let kind = match own.kind {
            DECLARE => StatementKind::Declare(Declare { name: self.text(record), ty: self.ty(own.c()) }),
            INIT => StatementKind::Init(Init {
                name: self.text(record),
                value: self.expr(own.c()),
                constant: own.detail & 1 != 0,
            }),
            RETURN => StatementKind::Return(self.expr(own.a())),
            CALL_STATEMENT => StatementKind::Call(self.expr(own.a())),
            IF => StatementKind::If(If {
                condition: self.expr(own.a()),
                then: self.block(own.b()),
                otherwise: (own.detail & 1 != 0).then(|| self.block(own.c())),
            }),
            WHILE => StatementKind::While(While { condition: self.expr(own.a()), body: self.block(own.b()) }),
            FOR => StatementKind::For(self.for_loop(own)),
            BREAK => StatementKind::Break,
            _ => StatementKind::Continue,
        };
        Statement { kind, span: self.span(record) }
    }

    fn for_loop(&self, own: &Record) -> For {
        For {
            variable: self.text(own.a()),
            ty: self.optional_ty(self.tree.at(own.a()).c()),
            from: self.expr(own.b()),
            until: self.expr(own.c()),
            body: self.block(own.d()),
        }
    }

    pub fn expr(&self, record: u32) -> Expr {
        let own = self.tree.at(record);
        let boxed = |record: u32| Box::new(self.expr(record));
        let kind = match own.kind {
            INT => ExprKind::Int(own.value() as i64, own.detail & 1 != 0, own.detail & 2 != 0),
            FLOAT => ExprKind::Float(f64::from_bits(own.value()), own.detail & 1 != 0),
            STR => ExprKind::Str(self.text(record)),
            BOOL => ExprKind::Bool(own.detail != 0),
            NAME => ExprKind::Name(self.text(record)),
            NULL => ExprKind::Null,
            SIZE_OF => ExprKind::SizeOf(self.sized(own.a())),
            UNARY => ExprKind::Unary { op: UNARY_OPS[own.detail as usize], operand: boxed(own.a()) },
            BINARY => ExprKind::Binary {
                op: BINARY_OPS[own.detail as usize],
                left: boxed(own.a()),
                right: boxed(own.b()),
            },
            _ => ExprKind::Call {
                verb: self.text(record),
                args: self.tree.items(own.c()).iter().map(|item| self.argument(*item)).collect(),
            },
        };
        Expr { kind, span: self.span(record) }
    }

    /// The type handed to Krc under a SizeOf. Krc multiplies in 64 bits; where that would wrap, it
    /// gets a type without a size (27, a listed difference), or one of size 0 where a count of 0
    /// makes the exact size 0. Typing a SizeOf does not look at the type.
    fn sized(&self, ty: u32) -> Type {
        if size_refused(self.tree, ty) {
            Type::Custom(String::new())
        } else if size_wraps(self.tree, ty) {
            Type::Array(Box::new(Type::Byte), 0)
        } else {
            self.ty(ty)
        }
    }

    fn argument(&self, item: u32) -> Argument {
        let own = self.tree.at(item);
        match own.kind {
            VALUE => Argument::Value { value: self.expr(own.a()), particle: Particle },
            _ => Argument::ToType(self.ty(own.a())),
        }
    }
}
