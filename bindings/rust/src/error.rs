//! Why a tree is refused.

use std::fmt;

const NONE: u32 = u32::MAX;

macro_rules! kinds {
    ($($name:ident = $number:literal,)*) => {
        /// Krc's `ConvertErrorKind` in its declared order, then what is refused before conversion, and what would make Krc panic.
        #[derive(Clone, Copy, Debug, PartialEq, Eq, Hash)]
        pub enum ErrorKind {
            $($name = $number,)*
        }

        impl ErrorKind {
            /// The kind with this number, 1 to 27.
            pub fn from_number(number: u32) -> Option<Self> {
                match number {
                    $($number => Some(ErrorKind::$name),)*
                    _ => None,
                }
            }
        }
    };
}

kinds! {
    SameSignature = 1,
    SameSymbol = 2,
    AlreadyDeclared = 3,
    UnknownVariable = 4,
    UnknownFunction = 5,
    AssignToConstant = 6,
    ReturnWithoutType = 7,
    NoValue = 8,
    MissingReturn = 9,
    NoMain = 10,
    MainNotInteger = 11,
    WrongReturnType = 12,
    WrongAssignType = 13,
    WrongOperands = 14,
    AmbiguousCall = 15,
    LiteralOutOfRange = 16,
    InvalidCast = 17,
    NotBool = 18,
    NotInteger = 19,
    BreakOutOfLoop = 20,
    ContinueOutOfLoop = 21,
    LatinCharInNonLibCFunction = 22,
    ExternNotLatin = 23,
    BadTree = 24,
    TooDeep = 25,
    ShortBuffer = 26,
    WouldPanic = 27,
}

/// Why a tree is refused: the kind, the record at fault, and that record's span (0, 0 for BadTree, TooDeep, ShortBuffer and NoMain).
#[derive(Clone, Copy, Debug, PartialEq, Eq)]
pub struct Refusal {
    pub kind: ErrorKind,
    pub place: Option<u32>,
    pub start: u32,
    pub end: u32,
}

impl Refusal {
    pub(crate) fn new(number: u32, place: u32, start: u32, end: u32) -> Self {
        let kind = ErrorKind::from_number(number)
            .expect("the library is proved to answer with a number from 1 to 27");
        Self { kind, place: Some(place).filter(|&place| place != NONE), start, end }
    }

    /// The number, 1 to 27.
    pub fn number(&self) -> u32 {
        self.kind as u32
    }
}

impl fmt::Display for Refusal {
    fn fmt(&self, f: &mut fmt::Formatter) -> fmt::Result {
        write!(f, "{} {:?}", self.number(), self.kind)?;
        match (self.place, self.kind) {
            (None, _) => Ok(()),
            (Some(place), ErrorKind::BadTree | ErrorKind::TooDeep) => write!(f, " at record {place}"),
            (Some(place), _) => write!(f, " at record {place} (span {} to {})", self.start, self.end),
        }
    }
}

impl std::error::Error for Refusal {}
