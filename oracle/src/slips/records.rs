//! Slips in the form of single records: details, words, counts of references, depth.

use super::reading::*;
use super::{Slips, Ways, form_name, letter};
use crate::tree::*;

pub fn details(slips: &mut Slips, at: usize, form: &Form) {
    if at >= TYPES {
        slips.add(format!("{} unknown", form_name(at)), move |rules| rules.forms[at] = None);
        for bit in [64, 128] {
            slips.add(format!("{} with {bit} known", form_name(at)), move |rules| {
                rules.forms[at + bit] = rules.forms[at].clone();
            });
        }
        return;
    }
    let largest = form.details.iter().rposition(|known| *known).unwrap_or(0);
    for detail in 0..=largest {
        slips.form(at, &format!("detail {detail} refused"), move |form| form.details[detail] = false);
    }
    slips.form(at, "one detail more", move |form| form.details[largest + 1] = true);
    slips.form(at, "any detail", |form| form.details = [true; 256]);
    for bit in (0..8).map(|bit| 1 << bit).filter(|bit| *bit > largest) {
        let ignored = move |form: &mut Form| {
            (0..256).filter(|detail| detail & bit != 0).for_each(|detail| {
                form.details[detail] = form.details[detail & !bit];
            });
        };
        slips.form(at, &format!("detail's bit {bit} ignored"), ignored);
    }
}

/// What a first type's word A holds is looked at twice, so there the slip is made in both places.
pub fn unused(slips: &mut Slips, rules: &Rules, at: usize, word: usize) {
    let first = rules.first.iter().position(|first| word == 0 && TYPES + usize::from(first[0].0) == at);
    let ways: Ways<fn(u32) -> bool, 4> = [
        ("not looked at", |_| true),
        ("may be none", |word| word == 0 || word == NONE),
        ("looked at in its low byte", |word| word & 0xFF == 0),
        ("looked at in its high byte", |word| word >> 24 == 0),
    ];
    for (name, way) in ways {
        slips.add(format!("{}: word {} {name}", form_name(at), letter(word)), move |rules| {
            rules.forms[at].as_mut().into_iter().for_each(|form| form.words[word] = Word::Unused(way));
            if let Some(first) = first {
                let gone = [1, 1 << 24, NONE].into_iter().filter(|word| way(*word));
                rules.first[first].extend(gone.map(|word| ((at - TYPES) as u8, word)));
            }
        });
    }
}

pub fn texts(slips: &mut Slips, at: usize, word: usize) {
    let ways: Ways<fn(u64, u64, u64) -> bool, 8> = [
        ("not looked at", |_, _, _| true),
        ("ends before the buffer's end", |from, length, end| from + length < end),
        ("ends one byte past the end", |from, length, end| from + length <= end + 1),
        ("added in 32 bits", |from, length, end| (from as u32).wrapping_add(length as u32) as u64 <= end),
        ("its length not looked at", |from, _, end| from <= end),
        ("its offset not looked at", |_, length, end| length <= end),
        ("if empty, anywhere", |from, length, end| length == 0 || from + length <= end),
        ("starts before the end", |from, length, end| from < end && from + length <= end),
    ];
    for (name, way) in ways {
        let name = format!("text {} {name}", letter(word));
        slips.form(at, &name, move |form| form.words[word] = Word::Text(way));
    }
}

/// A type that refers to another kind stands behind it and is at fault for that too, and references to types need not be counted; a record that
/// refers to itself is of a kind that may not stand there, but for a few.
pub fn references(slips: &mut Slips, at: usize, word: usize, reference: &Reference) {
    let own = if at >= TYPES { TYPE } else { at as u8 };
    for kind in (TYPE..=FUNCTION).filter(|kind| own != TYPE || *kind == TYPE) {
        let name = if reference.kinds & bit(kind) == 0 { "goes" } else { "refused" };
        slips.reference(at, word, &format!("kind {kind} {name}"), move |to| to.kinds ^= bit(kind));
    }
    let none = if reference.none { "never none" } else { "may be none" };
    slips.reference(at, word, none, |to| to.none ^= true);
    if reference.kinds & bit(own) != 0 {
        slips.reference(at, word, "the record itself goes", |to| to.own = true);
    }
    slips.reference(at, word, "a higher record goes", |to| to.higher = true);
    slips.reference(at, word, "past the end goes", |to| to.past = true);
    if own != TYPE {
        slips.reference(at, word, "not counted", |to| to.counted = false);
    }
    slips.reference(at, word, "not nested", |to| to.deep = false);
    reference.items.iter().for_each(|list| items(slips, at, word, list));
}

/// The items of a list that a word opens.
fn items(slips: &mut Slips, at: usize, word: usize, items: &Items) {
    for kind in TYPE..=FUNCTION {
        let name = if items.kinds & bit(kind) == 0 { "goes" } else { "refused" };
        slips.items(at, word, &format!("item of kind {kind} {name}"), move |items| items.kinds ^= bit(kind));
    }
    if !items.untyped {
        slips.items(at, word, "untyped items go", |items| items.untyped = true);
    }
    let ways: Ways<fn(usize, bool) -> bool, 5> = [
        ("no item looked at", |_, _| false),
        ("only the first item looked at", |position, _| position == 0),
        ("the first item not looked at", |position, _| position != 0),
        ("the last item not looked at", |_, last| !last),
        ("two items looked at", |position, _| position < 2),
    ];
    for (name, way) in ways {
        slips.items(at, word, name, move |items| items.looked = way);
    }
    for (name, blame) in [("first cell", Blame::FirstCell), ("cell", Blame::Cell), ("item", Blame::Item)] {
        let name = format!("an item blamed on its {name}");
        slips.items(at, word, &name, move |items| items.blame = blame);
    }
}

/// What counts as a reference.
pub fn counting(slips: &mut Slips) {
    let ways: Ways<Counting, 3> = [
        ("to a wrong kind", |tree, form, record, index| match &form.words[index] {
            Word::Refers(to) => {
                let target = tree.records.get(record.words[index] as usize);
                target.is_none_or(|target| target.kind < 32 && to.kinds & bit(target.kind) != 0)
            }
            _ => true,
        }),
        ("from a wrong detail", |_, form, record, _| form.details[usize::from(record.detail)]),
        ("without its mark", |_, _, record, index| {
            !matches!(
                (record.kind, record.detail & 1, record.detail & 4, index),
                (IF, 0, _, 2) | (FUNCTION, _, 0, 4)
            )
        }),
    ];
    for (name, way) in ways {
        slips.add(format!("a reference {name} not counted"), move |rules| rules.counting = way);
    }
    slips.add("references counted in a byte".to_string(), |rules| rules.counter = 255);
    slips.add("references counted in a bit".to_string(), |rules| rules.counter = 1);
    slips.add("references of unknown kinds counted".to_string(), |rules| rules.unknown_counts = true);
    for kind in [0, 26, 27, 31, 32, 54] {
        slips.add(format!("kind {kind} known"), move |rules| {
            rules.forms[kind] = rules.forms[usize::from(BREAK)].clone();
        });
    }
}

/// How often a record is referred to, and how deep it is.
pub fn counts(slips: &mut Slips, at: usize, form: &Form) {
    if form.least == 0 {
        slips.form(at, "referred to at least once", |form| form.least = 1);
        slips.form(at, "referred to at most once", |form| form.most = 1);
    } else {
        slips.form(at, "never referred to goes", |form| form.least = 0);
        slips.form(at, "referred to twice goes", |form| form.most = 2);
    }
    if form.adds > 0 {
        slips.form(at, "adds no depth", |form| form.adds = 0);
    }
    slips.form(at, "adds one depth more", |form| form.adds += 1);
}

pub fn marks(slips: &mut Slips) {
    for which in 0..2 {
        slips.add(format!("mark {which} not looked at"), move |rules| _ = rules.marks.remove(which));
    }
    for other in [1, 2] {
        slips.add(format!("a function's mark 4 or {other}"), move |rules| rules.marks[1].1 |= other);
    }
}
