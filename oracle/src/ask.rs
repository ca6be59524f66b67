//! Single questions over a judged tree: the folds, and types and calls over a scope. The yardstick that the tree is held to answers.

use crate::convert::{error_place, quietly};
use crate::converter::convert_error::ConvertError;
use crate::judge::{Refusal, judge, needed};
use crate::parser::postparser::structs::{Expr, Function, Program, Type};
use crate::program::Build;
use crate::stand_ins::set_key_texts;
use crate::tree::*;
use crate::yardstick::{Called, Krc, Yardstick};

/// The answer to a question over a scope.
#[derive(Clone, Copy, Debug, PartialEq, Eq)]
pub enum Reply {
    /// A type's record.
    Type(u32),
    /// The record of the function that a call runs.
    Function(u32),
    /// A cast, with the record of its target type.
    Cast(u32),
    /// Nothing is wrong.
    Fine,
    /// An error's number and record.
    Error { number: u32, place: u32 },
    /// Krc panicked: number 27.
    Stop,
}

/// A judged tree that answers questions. Records handed in must be of the kind that is asked for.
pub struct Questions<'t> {
    build: Build<'t>,
    program: Program,
    functions: Vec<u32>,
    krc: &'static Krc,
}

/// Judges a tree with buffers that suffice.
pub fn judged<'t>(tree: &[u8], text: &'t [u8]) -> Result<Tree<'t>, Refusal> {
    judge(tree, text, needed(tree.len()))?;
    Ok(Tree::new(tree, text))
}

impl<'t> Questions<'t> {
    pub fn new(tree: &'t Tree<'t>) -> Self {
        let build = Build::new(tree);
        let (program, krc) = (build.program(), Yardstick::of(&build).krc());
        Self { program, functions: tree.of_kind(FUNCTION).collect(), build, krc }
    }

    pub fn int_value(&self, expr: u32) -> Option<i128> {
        (self.krc.int_value)(&self.build.expr(expr))
    }

    pub fn float_value(&self, expr: u32) -> Option<f64> {
        (self.krc.float_value)(&self.build.expr(expr))
    }

    /// Whether `expr`, of type `ty`, goes where `expected` goes.
    pub fn fits(&self, expr: u32, ty: u32, expected: u32) -> bool {
        let build = &self.build;
        (self.krc.fits)(&build.expr(expr), &build.ty(ty), &build.ty(expected))
    }

    /// Whether `expr`, of type `ty`, is out of the range of `expected` (number 16, at `expr`).
    pub fn range_error(&self, expr: u32, ty: u32, expected: u32) -> bool {
        let build = &self.build;
        (self.krc.range_error)(&build.expr(expr), &build.ty(ty), &build.ty(expected))
    }

    /// The type of `expr` over the parameters of function record `scope`.
    pub fn get_type(&self, scope: u32, expr: u32) -> Reply {
        self.ask(scope, expr, |func, expr| {
            (self.krc.get_type)(&self.program, func, expr).map(|ty| Reply::Type(self.type_record(&ty)))
        })
    }

    /// What the call `expr` runs, over the parameters of function record `scope`.
    pub fn resolve_call(&self, scope: u32, expr: u32) -> Reply {
        self.ask(scope, expr, |func, expr| {
            let called = (self.krc.resolve_call)(&self.program, func, expr)?;
            Ok(match called.expect("a call is asked for") {
                Called::Function(func) => Reply::Function((func.span.start >> 32) as u32),
                Called::Cast(ty) => Reply::Cast(self.type_record(&ty)),
            })
        })
    }

    /// Whether the program has the `main` that it needs.
    pub fn check_main(&self, needs_main: bool) -> Reply {
        set_key_texts(self.build.key_texts());
        reply(quietly(|| (self.krc.check_main)(&self.program, needs_main).map(|()| Reply::Fine)))
    }

    fn type_record(&self, ty: &Type) -> u32 {
        self.build.type_record(ty).expect("the tree has a record for each type")
    }

    fn ask(
        &self,
        scope: u32,
        expr: u32,
        question: impl FnOnce(&Function, &Expr) -> Result<Reply, ConvertError>,
    ) -> Reply {
        set_key_texts(self.build.key_texts());
        let index = self.functions.iter().position(|record| *record == scope);
        let func = &self.program.functions[index.expect("the scope is a function record")];
        let expr = self.build.expr(expr);
        reply(quietly(|| question(func, &expr)))
    }
}

fn reply<P>(said: Result<Result<Reply, ConvertError>, P>) -> Reply {
    match said {
        Ok(Ok(reply)) => reply,
        Ok(Err(error)) => {
            let (number, place) = error_place(&error);
            Reply::Error { number, place }
        }
        Err(_) => Reply::Stop,
    }
}
