//! The two yardsticks: Krc's Rust, and the same with the places changed that a request amends. A tree's records tell which of them
//! holds, not the answers.

use crate::converter::convert_error::ConvertError;
use crate::converter::ir::structs as ir;
use crate::parser::postparser::structs::{Expr, Function, Program, Type};
use crate::program::Build;
use crate::tree::{BINARY, CALL, Tree, VALUE};
use crate::write::SHL;

pub use crate::amended::probe::KRC as AMENDED;
pub use crate::converter::probe::KRC as RUST;

#[derive(Clone, Copy, Debug, PartialEq, Eq)]
pub enum Yardstick {
    /// Krc's converter, unmodified.
    Rust,
    /// The amended copy of it, for trees that a request decides.
    Amended(Reason),
}

/// Why a tree is held to the amended copy.
#[derive(Clone, Copy, Debug, PartialEq, Eq)]
pub enum Reason {
    /// 'The Rust is the yardstick where no constant loses bits, elsewhere the amended definition.'
    LostBits,
    /// 'Function calls with a type argument before a value are held to this, not to the Rust.'
    TypeArguments,
    Both,
}

/// What a call runs.
pub enum Called<'a> {
    Function(&'a Function),
    Cast(Type),
}

/// What is asked of Krc's converter, of the unmodified or of the amended one.
pub struct Krc {
    pub convert: fn(&Program, bool) -> Result<ir::Program, ConvertError>,
    pub int_value: fn(&Expr) -> Option<i128>,
    pub float_value: fn(&Expr) -> Option<f64>,
    pub fits: fn(&Expr, &Type, &Type) -> bool,
    pub range_error: fn(&Expr, &Type, &Type) -> bool,
    pub get_type: fn(&Program, &Function, &Expr) -> Result<Type, ConvertError>,
    pub resolve_call:
        for<'a> fn(&'a Program, &'a Function, &Expr) -> Result<Option<Called<'a>>, ConvertError>,
    pub check_main: fn(&Program, bool) -> Result<(), ConvertError>,
}

impl Yardstick {
    /// The one that the tree of `build` is held to.
    pub fn of(build: &Build) -> Self {
        match (!lost_shifts(build).is_empty(), !typed_calls(build.tree).is_empty()) {
            (false, false) => Self::Rust,
            (true, false) => Self::Amended(Reason::LostBits),
            (false, true) => Self::Amended(Reason::TypeArguments),
            (true, true) => Self::Amended(Reason::Both),
        }
    }

    pub fn krc(self) -> &'static Krc {
        match self {
            Self::Rust => &RUST,
            Self::Amended(_) => &AMENDED,
        }
    }
}

/// The left shifts that lose bits: those that fold in the Rust and not as amended, in whatever function or place.
pub fn lost_shifts(build: &Build) -> Vec<u32> {
    let shifts = build.tree.of_kind(BINARY).filter(|record| build.tree.at(*record).detail == SHL);
    let lost = |record: &u32| {
        let expr = build.expr(*record);
        (RUST.int_value)(&expr).is_some() && (AMENDED.int_value)(&expr).is_none()
    };
    shifts.filter(lost).collect()
}

/// The function calls with a type argument before a value, in whatever function; a cast is none.
pub fn typed_calls(tree: &Tree) -> Vec<u32> {
    let kinds = |call: u32| tree.items(tree.at(call).c()).into_iter().map(|item| tree.at(item).kind);
    let before = |call: u32| kinds(call).skip_while(|kind| *kind == VALUE).any(|kind| kind == VALUE);
    tree.of_kind(CALL).filter(|call| !tree.is_cast(*call) && before(*call)).collect()
}
