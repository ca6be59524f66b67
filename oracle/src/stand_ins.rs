//! Small stand-ins for the parts of Krc that its converter names and that are not at hand.

use std::cell::RefCell;
use std::fmt;

use crate::parser::postparser::structs::{BinaryOp, Expr, Type, UnaryOp};

pub mod parser_token {
    /// A particle only says an argument's role; the converter never looks at it.
    pub struct Particle;
}

pub mod instructions {
    /// The width of an operand for the code generator, which is not built.
    pub enum Size {
        U8,
        U32,
        U64,
    }
}

thread_local! {
    /// The key text of each type of the tree that is being converted.
    static KEY_TEXTS: RefCell<Vec<(Type, String)>> = const { RefCell::new(Vec::new()) };
}

/// Makes `Display` of a type print the key text that the tree gives it.
pub fn set_key_texts(texts: Vec<(Type, String)>) {
    KEY_TEXTS.with(|table| *table.borrow_mut() = texts);
}

impl fmt::Display for Type {
    fn fmt(&self, f: &mut fmt::Formatter<'_>) -> fmt::Result {
        KEY_TEXTS.with(|table| {
            let table = table.borrow();
            match table.iter().find(|(ty, _)| ty == self) {
                Some((_, text)) => f.write_str(text),
                None => panic!("oracle: no record for the type {self:?}"),
            }
        })
    }
}

/// Only comments and messages print an expression, and the tables hold no such text.
impl fmt::Display for Expr {
    fn fmt(&self, _: &mut fmt::Formatter<'_>) -> fmt::Result {
        Ok(())
    }
}

impl fmt::Display for UnaryOp {
    fn fmt(&self, _: &mut fmt::Formatter<'_>) -> fmt::Result {
        Ok(())
    }
}

impl fmt::Display for BinaryOp {
    fn fmt(&self, _: &mut fmt::Formatter<'_>) -> fmt::Result {
        Ok(())
    }
}
