//! What a program that nearly converts has in it: statements and expressions taken without regard to
//! types, names and loops, so that errors meet each other in every order.

use super::programs::{Maker, all_types};
use crate::ast::{Ar, Ex, St, Ty};
use crate::write::*;

impl Maker<'_> {
    fn any_type(&mut self) -> Ty {
        self.rng.pick(&all_types()).clone()
    }

    /// A name that is known here, perhaps that of a constant; else one that is not.
    fn any_name(&mut self) -> Vec<u8> {
        let known: Vec<String> = self.variables().map(|variable| variable.name.clone()).collect();
        if known.is_empty() || self.rng.chance(15) {
            return "모르다".into();
        }
        self.rng.pick(&known).clone().into_bytes()
    }

    fn any_expr(&mut self) -> Ex {
        let ty = self.any_type();
        self.right(&ty, 1, true)
    }

    /// An expression that takes no account of its place.
    pub fn odd_expr(&mut self) -> Ex {
        match self.rng.below(9) {
            0 => Ex::SizeOf(self.any_type()),
            1 => call("바꾸다", vec![Ar::Type(self.any_type())]),
            2 => cast(self.any_expr(), self.any_type()),
            3 => unary(self.rng.below(3) as u8, self.any_expr()),
            4 | 5 => {
                let (left, right) = (self.any_expr(), self.any_expr());
                binary(left, self.rng.below(18) as u8, right)
            }
            6 => self.odd_call(),
            7 => Ex::Name(self.any_name()),
            _ => self.any_expr(),
        }
    }

    fn odd_call(&mut self) -> Ex {
        let at = self.rng.below(self.functions.len());
        let verb = self.functions[at].name.clone();
        let count = self.rng.below(3);
        Ex::Call(verb, (0..count).map(|_| Ar::Value(self.any_expr())).collect())
    }

    /// A statement that takes no account of where it stands.
    pub fn odd_statement(&mut self) -> St {
        match self.rng.below(12) {
            0 => St::Declare("새".into(), self.any_type()),
            1 => St::Declare(self.any_name(), self.any_type()),
            2 => St::Init(true, self.any_name(), self.odd_expr()),
            3 | 4 => St::Init(false, self.any_name(), self.odd_expr()),
            5 => [St::Break, St::Continue][self.rng.below(2)].clone(),
            6 => St::Return(self.odd_expr()),
            7 => St::Call(cast(self.odd_expr(), self.any_type())),
            8 => St::Call(self.odd_expr()),
            9 => St::For(self.any_name(), None, self.odd_expr(), self.odd_expr(), vec![]),
            10 => {
                let (ty, from, until) = (self.any_type(), self.odd_expr(), self.odd_expr());
                St::For(self.any_name(), Some(ty), from, until, vec![St::Break])
            }
            _ => {
                let odd = vec![St::Init(false, self.any_name(), self.odd_expr())];
                St::While(self.odd_expr(), odd)
            }
        }
    }
}
