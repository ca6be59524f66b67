//! The comparison of texts, through its static library, beside Rust's `==` on slices: the answers, and the time. README.md has the commands.

use std::hint::black_box;
use std::process::{self, Command};
use std::time::Instant;

mod linked {
    unsafe extern "C" {
        pub fn records_c_same_text(text: *const u8, text_len: usize, a: u32, n: u32, b: u32, m: u32) -> bool;
    }
}

type Same = unsafe extern "C" fn(*const u8, usize, u32, u32, u32, u32) -> bool;

/// Offset and length.
type Part = (usize, usize);

fn ours(text: &[u8], (a, n): Part, (b, m): Part) -> bool {
    // SAFETY: it reads the text only, and its contract requires nothing.
    unsafe { linked::records_c_same_text(text.as_ptr(), text.len(), a as u32, n as u32, b as u32, m as u32) }
}

/// A text of the buffer, as far as it lies within.
fn cut(text: &[u8], (offset, len): Part) -> &[u8] {
    let rest = text.get(offset..).unwrap_or(&[]);
    &rest[..len.min(rest.len())]
}

fn rusts(text: &[u8], p: Part, q: Part) -> bool {
    cut(text, p) == cut(text, q)
}

/// SplitMix64: a fixed sequence, so that a run can be repeated.
struct Random(u64);

impl Random {
    fn below(&mut self, n: usize) -> usize {
        self.0 = self.0.wrapping_add(0x9e37_79b9_7f4a_7c15);
        let mut z = self.0;
        z = (z ^ (z >> 30)).wrapping_mul(0xbf58_476d_1ce4_e5b9);
        z = (z ^ (z >> 27)).wrapping_mul(0x94d0_49bb_1331_11eb);
        ((z ^ (z >> 31)) % n as u64) as usize
    }
}

const LONGEST: usize = 400;

/// Where the texts of a pair differ.
const KINDS: [&str; 4] = ["equal", "first", "middle", "last"];

fn differ_at(kind: &str, n: usize) -> Option<usize> {
    match kind {
        "first" => Some(0),
        "middle" => Some(n / 2),
        "last" => Some(n - 1),
        _ => None,
    }
}

/// Two copies of n random bytes, the second at the buffer's very end.
fn pair(random: &mut Random, n: usize) -> (Vec<u8>, usize, usize) {
    let (a, gap) = (random.below(64), random.below(64));
    let b = a + n + gap;
    let mut text: Vec<u8> = (0..b + n).map(|_| random.below(256) as u8).collect();
    text.copy_within(a..a + n, b);
    (text, a, b)
}

/// Every length, equal and with each single byte changed, lengths that differ by one, parts that overlap or lie past the end.
fn check() -> u64 {
    let (mut random, mut calls, mut differ) = (Random(1), 0, 0);
    let mut hold = |text: &[u8], p: Part, q: Part| {
        calls += 1;
        if ours(text, p, q) != rusts(text, p, q) {
            differ += 1;
            println!("difference: {} bytes of text, {p:?} {q:?}", text.len());
        }
    };
    for n in 0..=LONGEST {
        for _ in 0..8 {
            let (mut text, a, b) = pair(&mut random, n);
            for (p, q) in [(n, n), (n, n + 1), (n + 1, n), (n, n.saturating_sub(1)), (n.saturating_sub(1), n)]
            {
                hold(&text, (a, p), (b, q));
            }
            for i in 0..n {
                text[b + i] ^= 1 << random.below(8);
                hold(&text, (a, n), (b, n));
                text[b + i] = text[a + i];
            }
            for _ in 0..8 {
                let len = text.len() + 9;
                let mut part = || (random.below(len), random.below(len));
                hold(&text, part(), part());
            }
            hold(&vec![7; text.len()], (a, n), (a + 1, n));
        }
    }
    println!("{calls} comparisons: {differ} differences");
    differ
}

/// Nanoseconds a call: the best of many short rounds over places of all alignments, so that another program counts for little.
fn nanoseconds<P>(places: &[P], call: impl Fn(&P) -> bool) -> f64 {
    let round = |_| {
        let start = Instant::now();
        for place in places {
            black_box(call(place));
        }
        start.elapsed().as_nanos() as f64 / places.len() as f64
    };
    (0..60).map(round).fold(f64::MAX, f64::min)
}

/// Pairs of one kind, with lengths in turn as given, and the text that holds them.
fn places(random: &mut Random, kind: &str, lengths: &[usize]) -> (Vec<u8>, Vec<(Part, Part)>) {
    let (mut text, mut all) = (Vec::new(), Vec::new());
    for &n in lengths {
        let (mut bytes, a, b) = pair(random, n);
        if let Some(i) = differ_at(kind, n) {
            bytes[b + i] ^= 1;
        }
        all.push(((text.len() + a, n), (text.len() + b, n)));
        text.extend(bytes);
    }
    (text, all)
}

/// Ours, and `==` on slices that stand ready, through function pointers.
fn measure(random: &mut Random, kind: &str, lengths: &[usize]) -> [f64; 2] {
    let (text, pairs) = places(random, kind, lengths);
    let places: Vec<(Part, Part)> = pairs.iter().cycle().take(512).copied().collect();
    let slices: Vec<(&[u8], &[u8])> = places.iter().map(|&(p, q)| (cut(&text, p), cut(&text, q))).collect();
    let same = black_box(linked::records_c_same_text as Same);
    let equal: fn(&[u8], &[u8]) -> bool = black_box(|x, y| x == y);
    // SAFETY: as in `ours`.
    let ours = nanoseconds(&places, |&((a, n), (b, m))| unsafe {
        same(text.as_ptr(), text.len(), a as u32, n as u32, b as u32, m as u32)
    });
    [ours, nanoseconds(&slices, |&(x, y)| equal(x, y))]
}

/// The names that a program with long Hangul names has: 60 to 200 bytes, in no order.
fn names(random: &mut Random) -> Vec<usize> {
    (0..64).map(|_| 3 * (20 + random.below(47))).collect()
}

/// One line: for each kind ours and Rust's, at one length, or at the lengths of names for 0.
fn rows(length: usize) {
    let mut random = Random(length as u64);
    let lengths = if length == 0 { names(&mut random) } else { vec![length; 16] };
    let line = KINDS.map(|kind| measure(&mut random, kind, &lengths).map(|t| format!("{t:.2}")).join(" "));
    println!("{}", line.join(" "));
}

fn numbers(program: &str, length: usize) -> Vec<f64> {
    let out = Command::new(program).args(["rows", &length.to_string()]).output().expect("the program runs");
    String::from_utf8_lossy(&out.stdout)
        .split_whitespace()
        .map(|word| word.parse().expect("a number"))
        .collect()
}

/// The best of several turns of both programs: before and after in each kind, and Rust's.
fn beside(programs: [&str; 2], length: usize) -> Cells {
    let mut best = [[f64::MAX; 3]; 4];
    for _ in 0..3 {
        for (which, program) in programs.into_iter().enumerate() {
            for (cell, found) in best.iter_mut().zip(numbers(program, length).chunks(2)) {
                cell[which] = cell[which].min(found[0]);
                cell[2] = cell[2].min(found[1]);
            }
        }
    }
    best
}

/// Lengths that stand in the table; the names of a program come last.
const SHOWN: [usize; 18] = [1, 3, 7, 8, 9, 15, 16, 31, 32, 63, 64, 100, 127, 128, 150, 200, 300, 400];

type Cells = [[f64; 3]; 4];

fn row(word: &str, cells: Cells) {
    let words = cells.map(|[before, after, rust]| format!("{before:.1} / {after:.1} / {rust:.1}"));
    println!("| {word} | {} |", words.join(" | "));
}

/// Of one kind, at all lengths from 64 on: how far the time after is above Rust's.
fn summary(kind: usize, all: &[(usize, Cells)]) {
    let ratio = |&(length, cells): &(usize, Cells)| (cells[kind][1] / cells[kind][2], length);
    let mut ratios: Vec<(f64, usize)> = all.iter().filter(|(length, _)| *length >= 64).map(ratio).collect();
    ratios.sort_by(|x, y| x.0.total_cmp(&y.0));
    let (middle, (worst, at)) = (ratios[ratios.len() / 2].0, ratios[ratios.len() - 1]);
    let mut above: Vec<usize> = ratios.iter().filter(|(ratio, _)| *ratio > 1.5).map(|pair| pair.1).collect();
    above.sort();
    let words = format!("after / == is {middle:.2} at the median, {worst:.2} at most (at {at})");
    println!(
        "{}, 64 to {LONGEST} bytes: {words}, above 1.5 at {} lengths {above:?}",
        KINDS[kind],
        above.len()
    );
}

fn table(programs: [&str; 2]) {
    let all: Vec<(usize, Cells)> = (1..=LONGEST).map(|length| (length, beside(programs, length))).collect();
    println!("| bytes | {} |\n|---|---|---|---|---|", KINDS.join(" | "));
    for &(length, cells) in all.iter().filter(|(length, _)| SHOWN.contains(length)) {
        row(&length.to_string(), cells);
    }
    row("60 to 200 in turn", beside(programs, 0));
    println!();
    for kind in 0..KINDS.len() {
        summary(kind, &all);
    }
}

fn main() {
    let words: Vec<String> = std::env::args().skip(1).collect();
    match words.iter().map(String::as_str).collect::<Vec<_>>()[..] {
        ["check"] => process::exit((check() != 0).into()),
        ["rows", length] => rows(length.parse().expect("a length")),
        ["beside", before, after] => table([before, after]),
        _ => {
            eprintln!("texts-bench check | beside BEFORE AFTER | rows LENGTH");
            process::exit(2);
        }
    }
}
