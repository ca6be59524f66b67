//! The reference: Krc's own converter, unmodified, driven by record trees, and an amended copy of it for
//! trees that a request decides; with a generator of trees and a printer for people.

pub mod ask;
pub mod ast;
pub mod convert;
pub mod forms;
pub mod generate;
pub mod judge;
pub mod program;
pub mod show;
pub mod slips;
pub mod source;
pub mod stand_ins;
pub mod tables;
pub mod tally;
pub mod tree;
pub mod visits;
pub mod walk;
pub mod write;
pub mod yardstick;

/// Stand-in for Krc's module of that name.
pub mod elf {
    pub use crate::stand_ins::instructions;
}

include!(concat!(env!("OUT_DIR"), "/krc.rs"));

pub use convert::{Answer, convert};
pub use generate::{Case, classes, generate};
pub use judge::{Refusal, judge, needed};
pub use tables::Tables;
pub use yardstick::Yardstick;
