//! A list of cases for the whole call: the answer and every byte of the seven buffers of each.

use super::{Case, broken, generate, list, misses, shifts, whole};
use crate::ast::Layout;
use crate::convert::{Answer, Held, held};
use crate::generate::classes;
use crate::judge::needed;
use crate::tree::{RECORD_BYTES, Tree};
use crate::yardstick::typed_calls;

/// The most records of a generated tree in the list, of one that is made for an error, and of one with a type argument before a value
/// beside those that come in turn, so that the list stays small.
const MOST_RECORDS: usize = 90;
const MOST_RECORDS_MISSED: usize = 150;
const MOST_RECORDS_TYPED: usize = 75;

/// For how many records a program that replays the list has buffers (`crates/convert_replay`): none is lent longer ones.
const ROOM: usize = 2_049;

/// One generated tree in so many may be larger; a prime, so that every class has its turn.
const LARGE_EACH: usize = 509;

/// How many trees the list has for each error at least.
const MISSES_EACH: usize = 6;

/// How many small trees with a type argument before a value the list has beside those that come in turn.
const TYPED: usize = 150;

/// A case of the line `number|main needed|tree|text|answer` of a file of vectors, bytes in hexadecimal.
fn vector(line: &str) -> Result<Case, String> {
    let fields: Vec<&str> = line.split('|').collect();
    let [number, main, tree, text, _] = fields[..] else {
        return Err(format!("a line of a file of vectors has five fields: {line:.40}"));
    };
    let bytes = |hex: &str| -> Result<Vec<u8>, String> {
        (0..hex.len() / 2)
            .map(|i| u8::from_str_radix(&hex[2 * i..2 * i + 2], 16).map_err(|err| format!("{number}: {err}")))
            .collect()
    };
    let tree = bytes(tree)?;
    let lens = needed(tree.len());
    Ok(Case { tree, text: bytes(text)?, needs_main: main == "1", lens, label: format!("vector {number}") })
}

/// Buffers longer than needed by a few bytes, which `at` tells.
fn lengthen(case: &mut Case, at: usize) {
    case.lens = std::array::from_fn(|i| case.lens[i] + (at / 3 + i) % 17);
}

/// Trees for each error in turn, every second with buffers longer than needed.
fn missed(seed: u64) -> Vec<Case> {
    let (mut cases, numbers) = (Vec::new(), misses::NUMBERS.len() as u64);
    for at in 0..numbers {
        let seeds = (0..).map(|turn| seed.wrapping_mul(numbers).wrapping_add(turn * numbers + at));
        let trees = seeds.map(|seed| generate(seed, "miss"));
        let small = trees.filter(|case| case.tree.len() <= MOST_RECORDS_MISSED * RECORD_BYTES);
        cases.extend(small.take(MISSES_EACH));
    }
    let second = cases.iter_mut().enumerate().filter(|(at, _)| at % 2 == 1);
    second.for_each(|(at, case)| lengthen(case, 3 * at));
    cases
}

/// Small trees with a type argument before a value.
fn typed(seed: u64) -> impl Iterator<Item = Case> {
    let trees = (0..).map(move |turn| generate(seed.wrapping_mul(2_000_003).wrapping_add(turn), "typed"));
    let small = trees.filter(|case| case.tree.len() <= MOST_RECORDS_TYPED * RECORD_BYTES);
    small.filter(|case| !typed_calls(&Tree::new(&case.tree, &case.text)).is_empty()).take(TYPED)
}

/// Whether a case of the judge's list is one of the larger ones that go into this list: at the limit and one above it.
fn is_taken(case: &Case) -> bool {
    let records = case.tree.len() / RECORD_BYTES;
    case.tree.len() <= 70_000 || records >= crate::judge::MOST_RECORDS
}

/// The cases: the vectors, those of the judge's list, each rule broken, each error, shifts at the limits, calls with type arguments, and generated ones of all
/// classes in turn until there are `count`; every third of the broken and the generated ones has buffers longer than needed.
pub fn cases(seed: u64, count: usize, vectors: &str) -> Result<Vec<Case>, String> {
    let mut cases: Vec<Case> = vectors.lines().map(vector).collect::<Result<_, _>>()?;
    cases.extend(list::cases(seed, 300).into_iter().filter(is_taken));
    for (at, case) in broken::all().iter().enumerate() {
        let mut case = case.clone();
        if at % 3 == 0 && case.lens == needed(case.tree.len()) {
            lengthen(&mut case, at);
        }
        cases.push(case);
    }
    cases.extend(missed(seed));
    cases.extend(shifts::limits().iter().map(|functions| whole(Layout::program(functions))));
    cases.extend(typed(seed));
    let classes: Vec<&str> = classes().iter().copied().filter(|class| *class != "broken").collect();
    for at in 0.. {
        if cases.len() >= count {
            break;
        }
        let (turn, which) = (at / classes.len(), at % classes.len());
        let mut case = generate(seed.wrapping_mul(1_000_003).wrapping_add(turn as u64), classes[which]);
        if case.tree.len() > MOST_RECORDS * RECORD_BYTES && at % LARGE_EACH != 0 {
            continue;
        }
        // By the turn as well, so that every class has its share whatever their number.
        if (turn + which) % 3 == 0 && classes[which] != "buffers" {
            lengthen(&mut case, at);
        }
        cases.push(case);
    }
    let room = needed(ROOM * RECORD_BYTES);
    cases
        .iter_mut()
        .for_each(|case| case.lens = std::array::from_fn(|which| case.lens[which].min(room[which])));
    Ok(cases)
}

/// The list as bytes, case by case.
pub fn bytes(cases: &[Case]) -> Result<Vec<u8>, String> {
    let mut list = Vec::new();
    for (at, case) in cases.iter().enumerate() {
        let held = held(&case.tree, &case.text, case.needs_main, case.lens)
            .map_err(|message| format!("internal error: {}: {message}", case.label))?;
        list.extend(entry(at, case, &held));
    }
    Ok(list)
}

/// Case number `at` as bytes: 26 words (tree length, text length, main needed; the seven lengths; the byte that fills the buffers, the byte
/// behind the tables afterwards; the eight words of the answer; the lengths of the six tables), then tree, text and tables. The tables stand in
/// the order of the buffers: instructions, variables, labels, functions, strings, floats.
pub fn entry(at: usize, case: &Case, held: &Held) -> Vec<u8> {
    let fill = 1 + (at * 37 % 255) as u32;
    let mut words = vec![case.tree.len() as u32, case.text.len() as u32, u32::from(case.needs_main)];
    words.extend(case.lens.iter().map(|len| *len as u32));
    let (tables, untouched): ([&[u8]; 6], bool) = match &held.answer {
        Answer::Converted(t) => {
            ([&t.instructions, &t.variables, &t.labels, &t.functions, &t.strings, &t.floats], false)
        }
        Answer::Refused(r) => ([&[]; 6], r.place == u32::MAX && r.number != 10),
    };
    words.extend([fill, if untouched { fill } else { 0 }]);
    words.extend(held.words());
    words.extend(tables.iter().map(|table| table.len() as u32));
    let head = words.iter().flat_map(|word| word.to_le_bytes());
    let mut bytes: Vec<u8> = head.chain(case.tree.iter().copied()).chain(case.text.iter().copied()).collect();
    tables.iter().for_each(|table| bytes.extend(*table));
    bytes
}
