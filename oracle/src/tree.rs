//! The records of a tree, as bytes and as fields, and which word of which kind means what.

/// The word that means "none" where a word refers to a record.
pub const NONE: u32 = u32::MAX;
pub const RECORD_BYTES: usize = 32;

pub const TYPE: u8 = 1;
pub const INT: u8 = 2;
pub const FLOAT: u8 = 3;
pub const STR: u8 = 4;
pub const BOOL: u8 = 5;
pub const NAME: u8 = 6;
pub const NULL: u8 = 7;
pub const SIZE_OF: u8 = 8;
pub const UNARY: u8 = 9;
pub const BINARY: u8 = 10;
pub const CALL: u8 = 11;
pub const LIST: u8 = 12;
pub const VALUE: u8 = 13;
pub const TYPE_ARGUMENT: u8 = 14;
pub const DECLARE: u8 = 15;
pub const INIT: u8 = 16;
pub const RETURN: u8 = 17;
pub const CALL_STATEMENT: u8 = 18;
pub const IF: u8 = 19;
pub const WHILE: u8 = 20;
pub const FOR: u8 = 21;
pub const BREAK: u8 = 22;
pub const CONTINUE: u8 = 23;
pub const VARIABLE: u8 = 24;
pub const FUNCTION: u8 = 25;

/// The verb of a cast: three Hangul syllables in UTF-8.
pub const CAST_VERB: [u8; 9] = [0xEB, 0xB0, 0x94, 0xEA, 0xBE, 0xB8, 0xEB, 0x8B, 0xA4];

#[derive(Clone, Copy, Debug, PartialEq, Eq)]
pub struct Record {
    pub kind: u8,
    pub detail: u8,
    pub pad: [u8; 2],
    pub words: [u32; 5],
    pub start: u32,
    pub end: u32,
}

impl Record {
    pub fn new(kind: u8, detail: u8, words: [u32; 5]) -> Self {
        Self { kind, detail, pad: [0; 2], words, start: 0, end: 0 }
    }

    pub fn read(bytes: &[u8]) -> Self {
        let word = |at: usize| u32::from_le_bytes(bytes[at..at + 4].try_into().unwrap());
        Self {
            kind: bytes[0],
            detail: bytes[1],
            pad: [bytes[2], bytes[3]],
            words: [word(4), word(8), word(12), word(16), word(20)],
            start: word(24),
            end: word(28),
        }
    }

    pub fn bytes(&self) -> [u8; RECORD_BYTES] {
        let mut bytes = [0; RECORD_BYTES];
        bytes[..4].copy_from_slice(&[self.kind, self.detail, self.pad[0], self.pad[1]]);
        let words = self.words.iter().chain([&self.start, &self.end]);
        for (slot, word) in bytes[4..].chunks_exact_mut(4).zip(words) {
            slot.copy_from_slice(&word.to_le_bytes());
        }
        bytes
    }

    pub fn a(&self) -> u32 {
        self.words[0]
    }
    pub fn b(&self) -> u32 {
        self.words[1]
    }
    pub fn c(&self) -> u32 {
        self.words[2]
    }
    pub fn d(&self) -> u32 {
        self.words[3]
    }
    pub fn e(&self) -> u32 {
        self.words[4]
    }

    /// Words A and B as one number of 64 bits, low word first.
    pub fn value(&self) -> u64 {
        u64::from(self.a()) | u64::from(self.b()) << 32
    }

    /// An array's count, words B and C.
    pub fn count(&self) -> u64 {
        u64::from(self.b()) | u64::from(self.c()) << 32
    }

    pub fn is_expression(&self) -> bool {
        (INT..=CALL).contains(&self.kind)
    }

    pub fn is_statement(&self) -> bool {
        (DECLARE..=CONTINUE).contains(&self.kind)
    }
}

/// What a word of a record holds.
#[derive(Clone, Copy, Debug, PartialEq, Eq)]
pub enum Role {
    Unused,
    Value,
    /// A text's offset; its length is the next word.
    Text,
    Length,
    Type,
    TypeOrNone,
    Expression,
    Name,
    LoopVariable,
    Item,
    Rest,
    Arguments,
    Parameters,
    Body,
}

impl Role {
    /// Whether the word refers to a record.
    pub fn refers(self) -> bool {
        !matches!(self, Role::Unused | Role::Value | Role::Text | Role::Length)
    }

    /// Whether the word may be none.
    pub fn optional(self) -> bool {
        use Role::*;
        matches!(self, TypeOrNone | Rest | Arguments | Parameters | Body)
    }
}

/// The roles of words A to E; `None` for an unknown kind, or a type of unknown detail.
pub fn roles(record: &Record) -> Option<[Role; 5]> {
    use Role::*;
    Some(match record.kind {
        TYPE => match record.detail {
            1 | 17 | 33 | 49 | 2 | 18 | 3 | 4 | 5 | 9 => [Unused, Unused, Unused, Text, Length],
            6 => [Type, Unused, Unused, Text, Length],
            7 => [Type, Value, Value, Text, Length],
            8 => [Text, Length, Unused, Text, Length],
            _ => return None,
        },
        INT | FLOAT => [Value, Value, Unused, Unused, Unused],
        STR | NAME => [Text, Length, Unused, Unused, Unused],
        BOOL | NULL | BREAK | CONTINUE => [Unused; 5],
        SIZE_OF | TYPE_ARGUMENT => [Type, Unused, Unused, Unused, Unused],
        UNARY | VALUE | RETURN | CALL_STATEMENT => [Expression, Unused, Unused, Unused, Unused],
        BINARY => [Expression, Expression, Unused, Unused, Unused],
        CALL => [Text, Length, Arguments, Unused, Unused],
        LIST => [Item, Rest, Unused, Unused, Unused],
        DECLARE => [Text, Length, Type, Unused, Unused],
        INIT => [Text, Length, Expression, Unused, Unused],
        IF => [Expression, Body, Body, Unused, Unused],
        WHILE => [Expression, Body, Unused, Unused, Unused],
        FOR => [LoopVariable, Expression, Expression, Body, Unused],
        VARIABLE => [Text, Length, TypeOrNone, Unused, Unused],
        FUNCTION => [Name, Name, Parameters, TypeOrNone, Body],
        _ => return None,
    })
}

/// The largest detail of each kind but types; every smaller one is in use too.
pub fn largest_detail(kind: u8) -> u8 {
    match kind {
        INT => 3,
        FLOAT | BOOL | INIT | IF => 1,
        UNARY => 2,
        BINARY => 17,
        FUNCTION => 7,
        _ => 0,
    }
}

/// A tree and its text, taken apart.
pub struct Tree<'t> {
    pub records: Vec<Record>,
    pub text: &'t [u8],
}

impl<'t> Tree<'t> {
    /// Takes apart `tree`, whose length is a multiple of 32.
    pub fn new(tree: &[u8], text: &'t [u8]) -> Self {
        let records = tree.chunks_exact(RECORD_BYTES).map(Record::read).collect();
        Self { records, text }
    }

    pub fn at(&self, record: u32) -> &Record {
        &self.records[record as usize]
    }

    /// The text at `offset`, once judged to be inside.
    pub fn slice(&self, offset: u32, length: u32) -> &'t [u8] {
        &self.text[offset as usize..][..length as usize]
    }

    /// The text of words A and B.
    pub fn own_text(&self, record: u32) -> &'t [u8] {
        self.slice(self.at(record).a(), self.at(record).b())
    }

    /// The items of the list that starts at `cell`, once judged.
    pub fn items(&self, mut cell: u32) -> Vec<u32> {
        let mut items = Vec::new();
        while cell != NONE {
            items.push(self.at(cell).a());
            cell = self.at(cell).b();
        }
        items
    }

    /// The records of one kind, in order.
    pub fn of_kind(&self, kind: u8) -> impl Iterator<Item = u32> + '_ {
        let numbered = self.records.iter().enumerate();
        numbered.filter(move |(_, record)| record.kind == kind).map(|(i, _)| i as u32)
    }

    /// Whether call `record` is a cast: the cast's verb with a type argument.
    pub fn is_cast(&self, record: u32) -> bool {
        self.own_text(record) == CAST_VERB
            && self.items(self.at(record).c()).iter().any(|item| self.at(*item).kind == TYPE_ARGUMENT)
    }
}
