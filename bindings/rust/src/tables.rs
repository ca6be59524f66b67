//! The six tables of a converted tree, entry by entry.

use crate::word;

/// Bytes of an entry: functions, instructions, variables, labels, strings, floats.
const ENTRY_BYTES: [usize; 6] = [32, 32, 4, 8, 8, 16];

const NONE: u32 = u32::MAX;

/// The tables of a converted tree, cut to their entries.
#[derive(Clone, Debug, PartialEq, Eq)]
pub struct Tables {
    bytes: [Vec<u8>; 6],
    visits: usize,
}

/// A function of the tree, in record order, and where its instructions, variables and labels stand in the tables.
#[derive(Clone, Copy, Debug, PartialEq, Eq)]
pub struct Function {
    pub record: u32,
    pub has_body: bool,
    pub instructions: (usize, usize),
    pub variables: (usize, usize),
    pub labels: (usize, usize),
}

/// Variables and labels count within their function, strings and floats within the program.
#[derive(Clone, Copy, Debug, PartialEq, Eq)]
pub enum Operand {
    Var(u32),
    /// The value's 64 bits, short, unsigned.
    Int(i64, bool, bool),
    Float(u32),
    Bool(bool),
    String(u32),
    Null,
}

/// Operators are numbers in the order of Krc's `UnaryOp` and `BinaryOp`.
#[derive(Clone, Copy, Debug, PartialEq, Eq)]
pub enum Kind {
    Copy {
        dest: u32,
        src: Operand,
    },
    Unary {
        dest: u32,
        op: u8,
        src: Operand,
    },
    Binary {
        dest: u32,
        op: u8,
        left: Operand,
        right: Operand,
    },
    Cast {
        dest: u32,
        src: Operand,
    },
    Zero {
        dest: u32,
    },
    Arg(Operand),
    /// The called function's record; each call's arguments stand directly before it.
    Call {
        dest: Option<u32>,
        function: u32,
    },
    Label(u32),
    Jump(u32),
    JumpIfNot {
        cond: Operand,
        target: u32,
    },
    Return(Operand),
    /// The statement's record.
    Comment(u32),
}

/// An instruction with its number in the whole table.
#[derive(Clone, Copy, Debug, PartialEq, Eq)]
pub struct Instruction {
    pub number: usize,
    pub kind: Kind,
}

#[derive(Clone, Copy, Debug, PartialEq, Eq)]
pub enum LabelKind {
    LoopStart,
    LoopEnd,
    LoopCheck,
    Otherwise,
    ConditionEnd,
    LogicRhs,
    LogicEnd,
}

/// A label: its kind, and the record that opens what it belongs to.
#[derive(Clone, Copy, Debug, PartialEq, Eq)]
pub struct Label {
    pub kind: LabelKind,
    pub opener: u32,
}

/// A string's place in the text buffer.
#[derive(Clone, Copy, Debug, PartialEq, Eq)]
pub struct Str {
    pub offset: u32,
    pub len: u32,
}

/// A float by its bits, with its short mark.
#[derive(Clone, Copy, Debug, PartialEq, Eq)]
pub struct Float {
    pub bits: u64,
    pub short: bool,
}

impl Float {
    pub fn value(&self) -> f64 {
        f64::from_bits(self.bits)
    }
}

fn long(bytes: &[u8], at: usize) -> u64 {
    u64::from(word(bytes, at)) | u64::from(word(bytes, at + 4)) << 32
}

fn operand(tag: u8, value: u64) -> Operand {
    match tag {
        1 => Operand::Var(value as u32),
        2..=5 => Operand::Int(value as i64, tag & 1 == 1, tag >= 4),
        6 => Operand::Float(value as u32),
        7 => Operand::Bool(value == 1),
        8 => Operand::String(value as u32),
        _ => Operand::Null,
    }
}

fn kind(entry: &[u8]) -> Kind {
    let (op, target, record) = (entry[1], word(entry, 4), word(entry, 24));
    let first = operand(entry[2], long(entry, 8));
    match entry[0] {
        1 => Kind::Copy { dest: target, src: first },
        2 => Kind::Unary { dest: target, op, src: first },
        3 => Kind::Binary { dest: target, op, left: first, right: operand(entry[3], long(entry, 16)) },
        4 => Kind::Cast { dest: target, src: first },
        5 => Kind::Zero { dest: target },
        6 => Kind::Arg(first),
        7 => Kind::Call { dest: Some(target).filter(|&dest| dest != NONE), function: record },
        8 => Kind::Label(target),
        9 => Kind::Jump(target),
        10 => Kind::JumpIfNot { cond: first, target },
        11 => Kind::Return(first),
        _ => Kind::Comment(record),
    }
}

fn label_kind(number: u32) -> LabelKind {
    match number {
        1 => LabelKind::LoopStart,
        2 => LabelKind::LoopEnd,
        3 => LabelKind::LoopCheck,
        4 => LabelKind::Otherwise,
        5 => LabelKind::ConditionEnd,
        6 => LabelKind::LogicRhs,
        _ => LabelKind::LogicEnd,
    }
}

impl Tables {
    /// Buffers in the order of the counts: functions, instructions, variables, labels, strings, floats; the seventh count is the visits.
    pub(crate) fn new(counts: [usize; 7], mut bytes: [Vec<u8>; 6]) -> Self {
        for (i, table) in bytes.iter_mut().enumerate() {
            table.truncate(counts[i] * ENTRY_BYTES[i]);
        }
        Self { bytes, visits: counts[6] }
    }

    fn entries(&self, table: usize) -> std::slice::ChunksExact<'_, u8> {
        self.bytes[table].chunks_exact(ENTRY_BYTES[table])
    }

    /// The six counts: functions, instructions, variables, labels, strings, floats.
    pub fn counts(&self) -> [usize; 6] {
        std::array::from_fn(|i| self.bytes[i].len() / ENTRY_BYTES[i])
    }

    /// How many expression records had their type worked out; none of them had it twice.
    pub fn visits(&self) -> usize {
        self.visits
    }

    pub fn functions(&self) -> impl ExactSizeIterator<Item = Function> {
        self.entries(0).map(|entry| {
            let range = |at: usize| (word(entry, at) as usize, word(entry, at + 4) as usize);
            Function {
                record: word(entry, 0),
                has_body: word(entry, 4) == 1,
                instructions: range(8),
                variables: range(16),
                labels: range(24),
            }
        })
    }

    pub fn instructions(&self) -> impl ExactSizeIterator<Item = Instruction> {
        self.entries(1).enumerate().map(|(number, entry)| Instruction { number, kind: kind(entry) })
    }

    /// A function's instructions.
    pub fn body(&self, function: &Function) -> impl Iterator<Item = Instruction> {
        self.instructions().skip(function.instructions.0).take(function.instructions.1)
    }

    /// The record of each variable's type.
    pub fn variables(&self) -> impl ExactSizeIterator<Item = u32> {
        self.entries(2).map(|entry| word(entry, 0))
    }

    pub fn labels(&self) -> impl ExactSizeIterator<Item = Label> {
        self.entries(3).map(|entry| Label { kind: label_kind(word(entry, 0)), opener: word(entry, 4) })
    }

    pub fn strings(&self) -> impl ExactSizeIterator<Item = Str> {
        self.entries(4).map(|entry| Str { offset: word(entry, 0), len: word(entry, 4) })
    }

    pub fn floats(&self) -> impl ExactSizeIterator<Item = Float> {
        self.entries(5).map(|entry| Float { bits: long(entry, 0), short: word(entry, 8) == 1 })
    }

    /// The bytes of a table, in the order of `counts`.
    pub fn bytes(&self, table: usize) -> &[u8] {
        &self.bytes[table]
    }
}
