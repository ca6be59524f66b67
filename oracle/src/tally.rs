//! How many trees or calls were held to which yardstick, and for which reason.

use std::fmt;

use crate::convert::Held;
use crate::yardstick::{Reason, Yardstick};

#[derive(Clone, Copy, Debug, Default, PartialEq, Eq)]
pub struct Tally {
    pub rust: u64,
    /// By lost bits, by type arguments, by both.
    pub amended: [u64; 3],
    /// Those of `amended` that the Rust answers otherwise.
    pub otherwise: [u64; 3],
    /// Refused before conversion, by document 01 alone.
    pub before: u64,
}

impl Tally {
    pub fn add(&mut self, held: &Held) {
        let reason = match held.by {
            None => return self.before += 1,
            Some(Yardstick::Rust) => return self.rust += 1,
            Some(Yardstick::Amended(Reason::LostBits)) => 0,
            Some(Yardstick::Amended(Reason::TypeArguments)) => 1,
            Some(Yardstick::Amended(Reason::Both)) => 2,
        };
        self.amended[reason] += 1;
        self.otherwise[reason] += u64::from(held.otherwise.is_some());
    }

    pub fn all_amended(&self) -> u64 {
        self.amended.iter().sum()
    }

    pub fn total(&self) -> u64 {
        self.rust + self.all_amended() + self.before
    }
}

impl fmt::Display for Tally {
    fn fmt(&self, f: &mut fmt::Formatter<'_>) -> fmt::Result {
        let reasons = |[lost, typed, both]: [u64; 3]| {
            format!("{lost} by lost bits, {typed} by type arguments, {both} by both")
        };
        write!(f, "{} held to the Rust; ", self.rust)?;
        write!(f, "{} to the amended definition ({}), ", self.all_amended(), reasons(self.amended))?;
        let otherwise: u64 = self.otherwise.iter().sum();
        write!(f, "of which the Rust answers {otherwise} otherwise ({}); ", reasons(self.otherwise))?;
        write!(f, "{} refused before conversion", self.before)
    }
}
