//! Generated trees through the call and through the oracle: number, place and span or the seven counts, and every byte of all buffers.

use std::collections::BTreeMap;
use std::{fs, path::Path};

use oracle::convert::{Held, held};
use oracle::judge::MOST_RECORDS_ONCE;
use oracle::tally::Tally;
use oracle::{Answer, Case, classes, generate};
use rudderplum::{ANSWER_BYTES, Buffers, RECORD_BYTES, convert_into, read_conversion};

/// Bytes behind each lent buffer, which no call may touch.
const GUARD: usize = 8;

/// Random bytes from which buffers are filled, enough for the longest at any start.
struct Fill {
    bytes: Vec<u8>,
    state: u64,
}

impl Fill {
    fn new(seed: u64) -> Self {
        let mut fill = Fill { bytes: Vec::new(), state: seed | 1 };
        while fill.bytes.len() < 8 << 20 {
            let word = fill.next();
            fill.bytes.extend(word.to_le_bytes());
        }
        fill
    }

    fn next(&mut self) -> u64 {
        self.state ^= self.state << 13;
        self.state ^= self.state >> 7;
        self.state ^= self.state << 17;
        self.state
    }

    fn below(&mut self, bound: usize) -> usize {
        (self.next() % bound as u64) as usize
    }

    /// A buffer of `len` bytes and the guard, filled with what stands at the start handed back.
    fn buffer(&mut self, len: usize) -> (Vec<u8>, usize) {
        let start = self.below(self.bytes.len() - len - GUARD);
        (self.bytes[start..start + len + GUARD].to_vec(), start)
    }
}

/// What a buffer holds after the call: what was found there, or these bytes and zeros behind them.
#[derive(Clone, Copy)]
enum After<'a> {
    Found,
    Holds(&'a [u8]),
}

fn holds(fill: &Fill, (buffer, start): &(Vec<u8>, usize), after: After) -> bool {
    let len = buffer.len() - GUARD;
    let found = &fill.bytes[*start..*start + buffer.len()];
    let written = match after {
        After::Found => buffer[..len] == found[..len],
        After::Holds(table) => {
            buffer[..len].starts_with(table) && buffer[table.len()..len].iter().all(|&byte| byte == 0)
        }
    };
    written && buffer[len..] == found[len..]
}

/// The seven buffers after an answer.
fn promised(answer: &Answer) -> [After<'_>; 7] {
    match answer {
        Answer::Converted(t) => [
            After::Holds(&t.instructions),
            After::Holds(&t.variables),
            After::Holds(&t.labels),
            After::Holds(&t.functions),
            After::Holds(&t.strings),
            After::Holds(&t.floats),
            After::Holds(&[]),
        ],
        // Rows 'lengths' and 'buffers'; NoMain has no place either, and clears all.
        Answer::Refused(r) if r.place == u32::MAX && matches!(r.number, 24 | 26) => [After::Found; 7],
        Answer::Refused(_) => [After::Holds(&[]); 7],
    }
}

/// Says what differs, if anything does.
fn differs(fill: &mut Fill, case: &Case, expected: &Held) -> Option<String> {
    let mut lent = case.lens.map(|len| fill.buffer(len));
    let short = fill.below(16) == 0;
    let answer_len = if short { fill.below(ANSWER_BYTES) } else { ANSWER_BYTES + fill.below(9) };
    let mut answer = fill.buffer(answer_len);
    let [instructions, variables, labels, functions, strings, floats, scratch] =
        lent.each_mut().map(|(buffer, _)| {
            let len = buffer.len() - GUARD;
            &mut buffer[..len]
        });
    let buffers = Buffers { instructions, variables, labels, functions, strings, floats, scratch };
    let wrote = convert_into(&case.tree, &case.text, case.needs_main, buffers, &mut answer.0[..answer_len]);
    if wrote == short {
        return Some(format!("returned {wrote} with {answer_len} bytes for the answer"));
    }
    let after = if short { [After::Found; 7] } else { promised(&expected.answer) };
    for (which, buffer) in lent.iter().enumerate() {
        if !holds(fill, buffer, after[which]) {
            return Some(format!("the bytes of buffer {which}"));
        }
    }
    let (written, behind) = answer.0.split_at(if short { 0 } else { ANSWER_BYTES });
    let found = &fill.bytes[answer.1..answer.1 + answer.0.len()];
    if behind != &found[written.len()..] {
        return Some("the bytes behind the answer".to_string());
    }
    let words = expected.words();
    let bytes: Vec<u8> = words.iter().flat_map(|word| word.to_le_bytes()).collect();
    if !short && written != bytes {
        let read = read_conversion(written.try_into().unwrap());
        return Some(format!("answer {read:?}, the oracle's {words:?}"));
    }
    None
}

fn keep(folder: &str, case: &Case, what: &str) -> std::io::Result<()> {
    let folder = Path::new(folder);
    fs::create_dir_all(folder)?;
    fs::write(folder.join("tree.bin"), &case.tree)?;
    fs::write(folder.join("text.bin"), &case.text)?;
    fs::write(folder.join("case.txt"), format!("{}\nbuffers {:?}\n{what}\n", case.label, case.lens))
}

/// What is compared.
pub struct Options<'o> {
    pub trees: u64,
    pub seed: u64,
    /// All classes in turn where none is named.
    pub class: Option<&'o str>,
    /// Where the smallest tree that differs goes.
    pub folder: &'o str,
}

impl Options<'_> {
    /// Tree number `at` with the buffers of each call: every fourth is lent longer ones than it needs, and every fifth is converted again with
    /// each one byte short. These are told by the turn as well, so that every class has its share whatever their number.
    fn calls(&self, fill: &mut Fill, at: u64) -> Vec<Case> {
        let all = classes().len() as u64;
        let (turn, which) = if self.class.is_some() { (at, 0) } else { (at / all, at % all) };
        let class = self.class.unwrap_or(classes()[which as usize]);
        let case = generate(self.seed.wrapping_mul(1_000_003).wrapping_add(turn), class);
        lend(fill, case, (turn + which) % 4 == 0, (turn + which) % 5 == 0)
    }
}

/// A case with the buffers of each call.
fn lend(fill: &mut Fill, mut case: Case, longer: bool, again: bool) -> Vec<Case> {
    if longer {
        case.lens = case.lens.map(|len| len + fill.below(40));
    }
    let mut cases = vec![case];
    if again {
        for which in 0..7 {
            let mut short = cases[0].clone();
            short.lens = oracle::needed(short.tree.len());
            short.lens[which] = short.lens[which].saturating_sub(1);
            cases.push(short);
        }
    }
    cases
}

/// What came of the calls so far.
#[derive(Default)]
struct Found {
    numbers: BTreeMap<u32, u64>,
    /// Trees by their first call, and calls.
    trees: Tally,
    calls: Tally,
    /// Calls that differ.
    differ: Tally,
    /// Trees of more records than the limit once was.
    large: u64,
    /// The length of the smallest tree that differs.
    smallest: usize,
}

impl Found {
    fn call(&mut self, fill: &mut Fill, case: &Case, folder: &str) -> Held {
        let held = held(&case.tree, &case.text, case.needs_main, case.lens)
            .unwrap_or_else(|message| panic!("oracle: internal error: {}: {message}", case.label));
        *self.numbers.entry(held.answer.number()).or_default() += 1;
        self.calls.add(&held);
        if let Some(what) = differs(fill, case, &held) {
            self.differ.add(&held);
            if case.tree.len() < self.smallest {
                self.smallest = case.tree.len();
                println!("{}: {what}", case.label);
                keep(folder, case, &what).unwrap_or_else(|err| eprintln!("{folder}: {err}"));
            }
        }
        held
    }

    fn print(&self) {
        let (trees, calls, differ) = (self.trees.total(), self.calls.total(), self.differ.total());
        println!("{trees} trees, {calls} calls, {differ} differ");
        println!("trees above {MOST_RECORDS_ONCE} records: {}", self.large);
        println!("trees: {}", self.trees);
        println!("calls: {}", self.calls);
        if differ > 0 {
            println!("differ: {}", self.differ);
        }
        for (number, count) in &self.numbers {
            println!("{number:2} {count}");
        }
    }
}

/// Compares generated trees; how many calls differ.
pub fn compare(options: &Options) -> u64 {
    let mut fill = Fill::new(options.seed.wrapping_mul(0x9E37_79B9_7F4A_7C15));
    let mut found = Found { smallest: usize::MAX, ..Found::default() };
    for at in 0..options.trees {
        for (turn, case) in options.calls(&mut fill, at).iter().enumerate() {
            let held = found.call(&mut fill, case, options.folder);
            if turn == 0 {
                found.trees.add(&held);
                found.large += u64::from(case.tree.len() / RECORD_BYTES > MOST_RECORDS_ONCE);
            }
        }
    }
    found.print();
    found.differ.total()
}
