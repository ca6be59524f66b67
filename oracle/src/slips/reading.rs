//! The rules of lengths, buffers, records and nesting a second time, as data, so that a slip is the change of one value.

use std::rc::Rc;
use std::slice;

use crate::tree::*;

/// Kinds as bits.
pub const fn bit(kind: u8) -> u32 {
    1 << kind
}

pub const fn bits(first: u8, last: u8) -> u32 {
    let (mut kinds, mut kind) = (0, first);
    while kind <= last {
        kinds |= bit(kind);
        kind += 1;
    }
    kinds
}

/// Which record a wrong item of a list is blamed on.
#[derive(Clone, Copy)]
pub enum Blame {
    Opener,
    FirstCell,
    Cell,
    Item,
}

/// What the items of a list may be, and which of them are looked at, by position and whether it is the last.
#[derive(Clone)]
pub struct Items {
    pub kinds: u32,
    pub untyped: bool,
    pub looked: fn(usize, bool) -> bool,
    pub blame: Blame,
}

/// A word that refers to a record.
#[derive(Clone)]
pub struct Reference {
    pub kinds: u32,
    pub none: bool,
    /// Whether the record itself, a higher one, one past the end goes.
    pub own: bool,
    pub higher: bool,
    pub past: bool,
    pub counted: bool,
    pub deep: bool,
    pub items: Option<Items>,
}

#[derive(Clone)]
pub enum Word {
    Unused(fn(u32) -> bool),
    Free,
    /// Offset, length and the buffer's length; the length is the next word.
    Text(fn(u64, u64, u64) -> bool),
    Refers(Reference),
}

/// What the records of a kind, or the types of a detail, may hold.
#[derive(Clone)]
pub struct Form {
    pub details: [bool; 256],
    pub pads: [bool; 2],
    pub words: [Word; 5],
    /// How often such a record is referred to.
    pub least: u32,
    pub most: u32,
    /// How much deeper it is than the deepest that it refers to.
    pub adds: u32,
}

#[derive(Clone, Copy, PartialEq)]
pub enum Stage {
    Form,
    Count,
    Order,
}

#[derive(Clone, Copy)]
pub enum Row {
    Lengths,
    Buffers,
    Records,
    Nesting,
}

/// Whether a word counts as a reference.
pub type Counting = fn(&Tree, &Form, &Record, usize) -> bool;

/// Whether two types are equal.
pub type Same = Rc<dyn Fn(&Tree, &Record, &Record) -> bool>;

#[derive(Clone)]
pub struct Rules {
    pub rows: Vec<Row>,
    pub multiple: usize,
    pub fewest: usize,
    pub most: usize,
    /// Bytes that a buffer needs for each record, and beside them.
    pub bytes: [(usize, isize); 7],
    pub deepest: u32,
    pub forms: Vec<Option<Form>>,
    /// A record of this kind without this mark has none in this word.
    pub marks: Vec<(u8, u8, usize)>,
    /// Details and word A that go at each of the first places; any type where there are none.
    pub first: Vec<Vec<(u8, u32)>>,
    pub first_types: [bool; 12],
    /// Whether kinds are looked at there.
    pub first_kinds: bool,
    pub late_types: bool,
    pub same: Same,
    /// Whether a type is compared with an earlier one.
    pub compared: fn(u32, u32) -> bool,
    pub later: bool,
    /// Whether a word of a record of a known form counts as a reference, and the bits in which references are counted.
    pub counting: Counting,
    pub counter: u32,
    /// Whether word A of a record of an unknown kind counts.
    pub unknown_counts: bool,
    /// What is looked for in all records before the rest.
    pub before: Option<Stage>,
    pub lowest: bool,
}

/// Where a type's forms start among the forms; those of the kinds come before.
pub const TYPES: usize = 64;

pub fn number_of_form(record: &Record) -> usize {
    if record.kind == TYPE { TYPES + usize::from(record.detail) } else { usize::from(record.kind) }
}

fn refers(kinds: u32) -> Word {
    let (none, own, higher, past, counted, deep) = (false, false, false, false, true, true);
    Word::Refers(Reference { kinds, none, own, higher, past, counted, deep, items: None })
}

fn or_none(word: Word) -> Word {
    match word {
        Word::Refers(reference) => Word::Refers(Reference { none: true, ..reference }),
        other => other,
    }
}

fn list_of(kinds: u32) -> Word {
    let items = Items { kinds, untyped: kinds != bit(VARIABLE), looked: |_, _| true, blame: Blame::Opener };
    match or_none(refers(bit(LIST))) {
        Word::Refers(reference) => Word::Refers(Reference { items: Some(items), ..reference }),
        other => other,
    }
}

fn form(largest: u8, words: &[Word]) -> Option<Form> {
    let mut all = [const { Word::Unused(|word| word == 0) }; 5];
    all[..words.len()].clone_from_slice(words);
    let details = std::array::from_fn(|detail| detail <= usize::from(largest));
    Some(Form { details, pads: [true; 2], words: all, least: 1, most: 1, adds: 1 })
}

/// The table of document 01, row by row.
fn forms() -> Vec<Option<Form>> {
    let mut forms = vec![None; TYPES + 256];
    let (free, unused) = (Word::Free, Word::Unused(|word| word == 0));
    let text = Word::Text(|from, length, end| from + length <= end);
    let (ty, expression) = (refers(bit(TYPE)), refers(bits(INT, CALL)));
    let (body, name) = (list_of(bits(DECLARE, CONTINUE)), refers(bit(NAME)));
    let named = |third: &Word| [text.clone(), free.clone(), third.clone()];
    for kind in INT..=FUNCTION {
        forms[usize::from(kind)] = match kind {
            INT => form(3, &[free.clone(), free.clone()]),
            FLOAT => form(1, &[free.clone(), free.clone()]),
            STR | NAME => form(0, &named(&unused)),
            BOOL => form(1, &[]),
            SIZE_OF | TYPE_ARGUMENT => form(0, slice::from_ref(&ty)),
            UNARY => form(2, slice::from_ref(&expression)),
            BINARY => form(17, &[expression.clone(), expression.clone()]),
            CALL => form(0, &named(&list_of(bit(VALUE) | bit(TYPE_ARGUMENT)))),
            LIST => form(0, &[refers(bits(TYPE, FUNCTION)), or_none(refers(bit(LIST)))]),
            VALUE | RETURN | CALL_STATEMENT => form(0, slice::from_ref(&expression)),
            DECLARE => form(0, &named(&ty)),
            INIT => form(1, &named(&expression)),
            IF => form(1, &[expression.clone(), body.clone(), body.clone()]),
            WHILE => form(0, &[expression.clone(), body.clone()]),
            FOR => form(0, &[refers(bit(VARIABLE)), expression.clone(), expression.clone(), body.clone()]),
            VARIABLE => form(0, &named(&or_none(ty.clone()))),
            FUNCTION => {
                let params = list_of(bit(VARIABLE));
                form(7, &[name.clone(), name.clone(), params, or_none(ty.clone()), body.clone()])
            }
            _ => form(0, &[]),
        };
    }
    type_forms(&mut forms);
    if let [Some(list), Some(function)] = [LIST, FUNCTION].map(|kind| forms[usize::from(kind)].clone()) {
        forms[usize::from(LIST)] = Some(Form { adds: 0, ..list });
        forms[usize::from(FUNCTION)] = Some(Form { least: 0, most: u32::MAX, ..function });
    }
    forms
}

/// The forms of types, by detail.
fn type_forms(forms: &mut [Option<Form>]) {
    let (ty, free, unused) = (refers(bit(TYPE)), Word::Free, Word::Unused(|word| word == 0));
    let text = Word::Text(|from, length, end| from + length <= end);
    for detail in [1, 17, 33, 49, 2, 18, 3, 4, 5, 9, 6, 7, 8] {
        let [a, b, c] = match detail {
            6 => [ty.clone(), unused.clone(), unused.clone()],
            7 => [ty.clone(), free.clone(), free.clone()],
            8 => [text.clone(), free.clone(), unused.clone()],
            _ => [unused.clone(), unused.clone(), unused.clone()],
        };
        let known = form(255, &[a, b, c, text.clone(), free.clone()]);
        forms[TYPES + detail] = known.map(|form| Form { least: 0, most: u32::MAX, ..form });
    }
}

fn text_of<'t>(tree: &Tree<'t>, record: &Record, word: usize) -> Option<&'t [u8]> {
    tree.text.get(record.words[word] as usize..)?.get(..record.words[word + 1] as usize)
}

pub fn name_of<'t>(tree: &Tree<'t>, record: &Record) -> Option<&'t [u8]> {
    text_of(tree, record, 0)
}

pub fn key_of<'t>(tree: &Tree<'t>, record: &Record) -> Option<&'t [u8]> {
    text_of(tree, record, 3)
}

pub fn same_type(tree: &Tree, left: &Record, right: &Record) -> bool {
    left.detail == right.detail
        && match left.detail {
            6 => left.a() == right.a(),
            7 => left.words[..3] == right.words[..3],
            8 => name_of(tree, left).is_some_and(|name| Some(name) == name_of(tree, right)),
            _ => true,
        }
}

impl Rules {
    pub fn new() -> Self {
        let first = [1, 17, 33, 49, 2, 18, 3, 4, 5, 9].map(|detail| vec![(detail, 0)]);
        Self {
            rows: vec![Row::Lengths, Row::Buffers, Row::Records, Row::Nesting],
            multiple: 32,
            fewest: 12,
            most: 16_384,
            bytes: [(320, 0), (12, 0), (24, 0), (32, 0), (8, 0), (32, 0), (72, 0)],
            deepest: 64,
            forms: forms(),
            marks: vec![(IF, 1, 2), (FUNCTION, 4, 4)],
            first: first.into_iter().chain([vec![(6, 7)], vec![(6, 9)]]).collect(),
            first_types: [true; 12],
            first_kinds: true,
            late_types: false,
            same: Rc::new(same_type),
            compared: |_, _| true,
            later: true,
            counting: |_, _, _, _| true,
            counter: u32::MAX,
            unknown_counts: false,
            before: None,
            lowest: true,
        }
    }

    fn form(&self, record: &Record) -> Option<&Form> {
        self.forms.get(number_of_form(record))?.as_ref()
    }

    /// Number and place, with FFFFFFFF for none; (0, 0) where all is well.
    pub fn answer(&self, tree: &Tree, tree_len: usize, lens: [usize; 7]) -> (u32, u32) {
        let n = tree_len / RECORD_BYTES;
        for row in &self.rows {
            let found = match row {
                Row::Lengths => {
                    let whole = tree_len.is_multiple_of(self.multiple);
                    (!whole || !(self.fewest..=self.most).contains(&n)).then_some((24, NONE))
                }
                Row::Buffers => {
                    let short = |((each, more), len): (&(usize, isize), usize)| {
                        (len as isize) < (each * n) as isize + more
                    };
                    self.bytes.iter().zip(lens).any(short).then_some((26, NONE))
                }
                Row::Records => self.fault(tree).map(|place| (24, place)),
                Row::Nesting => self.too_deep(tree).map(|place| (25, place)),
            };
            if let Some(answer) = found {
                return answer;
            }
        }
        (0, 0)
    }

    fn fault(&self, tree: &Tree) -> Option<u32> {
        let (counts, mut faults) = (self.counts(tree), Vec::new());
        for (at, record) in (0u32..).zip(&tree.records) {
            let Some(form) = self.form(record) else {
                faults.push((at, Stage::Form));
                continue;
            };
            if !(form.least..=form.most).contains(&counts[at as usize]) {
                faults.push((at, Stage::Count));
            }
            if !self.bytes_hold(record, form) {
                faults.push((at, Stage::Form));
            }
            for index in 0..5 {
                faults.extend(word_fault(tree, at, form, index).map(|place| (place, Stage::Form)));
            }
            faults.extend(self.order_fault(tree, at).map(|place| (place, Stage::Order)));
        }
        let early = faults.iter().filter(|(_, stage)| Some(*stage) == self.before);
        let places = early.map(|(place, _)| *place);
        let all = faults.iter().map(|(place, _)| *place);
        if self.lowest { places.min().or(all.min()) } else { all.max() }
    }

    fn counts(&self, tree: &Tree) -> Vec<u32> {
        let mut counts = vec![0; tree.records.len()];
        for record in &tree.records {
            for (index, number) in record.words.into_iter().enumerate() {
                let counted = match self.form(record).map(|form| (form, &form.words[index])) {
                    Some((form, Word::Refers(to))) => {
                        to.counted && (self.counting)(tree, form, record, index)
                    }
                    Some(_) => false,
                    None => index == 0 && self.unknown_counts,
                };
                if let Some(count) = counts.get_mut(number as usize) {
                    *count = (*count + u32::from(counted)) & self.counter;
                }
            }
        }
        counts
    }

    fn bytes_hold(&self, record: &Record, form: &Form) -> bool {
        let marked = |&(kind, mark, word): &(u8, u8, usize)| {
            record.kind != kind || record.detail & mark != 0 || record.words[word] == NONE
        };
        let pads = form.pads.iter().zip(record.pad).all(|(looked, byte)| !looked || byte == 0);
        form.details[usize::from(record.detail)] && pads && self.marks.iter().all(marked)
    }

    fn order_fault(&self, tree: &Tree, at: u32) -> Option<u32> {
        let record = tree.at(at);
        if let Some(wanted) = self.first.get(at as usize) {
            let goes = if record.kind == TYPE || !self.first_kinds {
                wanted.is_empty() || wanted.contains(&(record.detail, record.a()))
            } else {
                !self.first_types[at as usize]
            };
            return (!goes).then_some(at);
        }
        if record.kind != TYPE {
            return None;
        }
        let late = (0..at).any(|before| tree.at(before).kind != TYPE);
        let equal =
            |before: &u32| (self.compared)(*before, at) && (self.same)(tree, tree.at(*before), record);
        let twin = (0..at).filter(|before| tree.at(*before).kind == TYPE).find(equal);
        match twin {
            _ if late && !self.late_types => Some(at),
            Some(before) => Some(if self.later { at } else { before }),
            None => None,
        }
    }

    fn too_deep(&self, tree: &Tree) -> Option<u32> {
        let mut depths: Vec<u32> = Vec::new();
        for record in &tree.records {
            let form = self.form(record);
            let words = form.iter().flat_map(|form| &form.words).zip(record.words);
            let deep = words.filter(|(word, _)| matches!(word, Word::Refers(to) if to.deep));
            let deepest = deep.filter_map(|(_, number)| depths.get(number as usize)).max();
            depths.push(deepest.unwrap_or(&0) + form.map_or(1, |form| form.adds));
        }
        depths.iter().position(|depth| *depth > self.deepest).map(|at| at as u32)
    }
}

impl Default for Rules {
    fn default() -> Self {
        Self::new()
    }
}

/// Which record is at fault for a word, if one is.
fn word_fault(tree: &Tree, at: u32, form: &Form, index: usize) -> Option<u32> {
    let words = &tree.at(at).words;
    let word = words[index];
    match &form.words[index] {
        Word::Unused(holds) => (!holds(word)).then_some(at),
        Word::Free => None,
        Word::Text(inside) => {
            let (from, length) = (u64::from(word), u64::from(words[index + 1]));
            (!inside(from, length, tree.text.len() as u64)).then_some(at)
        }
        Word::Refers(reference) => reference_fault(tree, at, reference, word),
    }
}

fn reference_fault(tree: &Tree, at: u32, reference: &Reference, word: u32) -> Option<u32> {
    if word == NONE {
        return (!reference.none).then_some(at);
    }
    let Some(target) = tree.records.get(word as usize) else {
        return (!reference.past).then_some(at);
    };
    let placed = word < at || word == at && reference.own || word > at && reference.higher;
    if !placed || reference.kinds & 1u32.checked_shl(target.kind.into()).unwrap_or(0) == 0 {
        return Some(at);
    }
    let items = reference.items.as_ref().filter(|_| target.kind == LIST)?;
    wrong_item(tree, word, items).map(|(cell, item)| match items.blame {
        Blame::Opener => at,
        Blame::FirstCell => word,
        Blame::Cell => cell,
        Blame::Item => item,
    })
}

/// The first cell with a wrong item. A cell that is at fault itself ends the walk.
fn wrong_item(tree: &Tree, first: u32, items: &Items) -> Option<(u32, u32)> {
    let (mut cell, mut position) = (first, 0);
    loop {
        let (item, rest) = (tree.at(cell).a(), tree.at(cell).b());
        let last = rest >= cell || tree.at(rest).kind != LIST;
        if item < cell && (items.looked)(position, last) {
            let record = tree.at(item);
            let typed = items.untyped || record.kind != VARIABLE || record.c() != NONE;
            if items.kinds & 1u32.checked_shl(record.kind.into()).unwrap_or(0) == 0 || !typed {
                return Some((cell, item));
            }
        }
        if last {
            return None;
        }
        (cell, position) = (rest, position + 1);
    }
}
