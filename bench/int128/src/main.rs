//! Compares the crate int128, through its static library, with Rust's i128: every operation at boundary and random
//! operands, and the time of each. Ends with status 1 where there is a difference.
//!
//!     tools/staticlib int128_c && cargo run --release --manifest-path bench/int128/Cargo.toml [-- PAIRS]

use std::hint::black_box;
use std::time::Instant;

type Binary = extern "C" fn(u64, u64, u64, u64, &mut u64, &mut u64) -> bool;
type Unary = extern "C" fn(u64, u64, &mut u64, &mut u64) -> bool;

extern "C" {
    fn int128_c_add(ah: u64, al: u64, bh: u64, bl: u64, hi: &mut u64, lo: &mut u64) -> bool;
    fn int128_c_sub(ah: u64, al: u64, bh: u64, bl: u64, hi: &mut u64, lo: &mut u64) -> bool;
    fn int128_c_mul(ah: u64, al: u64, bh: u64, bl: u64, hi: &mut u64, lo: &mut u64) -> bool;
    fn int128_c_div(ah: u64, al: u64, bh: u64, bl: u64, hi: &mut u64, lo: &mut u64) -> bool;
    fn int128_c_rem(ah: u64, al: u64, bh: u64, bl: u64, hi: &mut u64, lo: &mut u64) -> bool;
    fn int128_c_and(ah: u64, al: u64, bh: u64, bl: u64, hi: &mut u64, lo: &mut u64) -> bool;
    fn int128_c_or(ah: u64, al: u64, bh: u64, bl: u64, hi: &mut u64, lo: &mut u64) -> bool;
    fn int128_c_xor(ah: u64, al: u64, bh: u64, bl: u64, hi: &mut u64, lo: &mut u64) -> bool;
    fn int128_c_shl(ah: u64, al: u64, bh: u64, bl: u64, hi: &mut u64, lo: &mut u64) -> bool;
    fn int128_c_shr(ah: u64, al: u64, bh: u64, bl: u64, hi: &mut u64, lo: &mut u64) -> bool;
    fn int128_c_neg(ah: u64, al: u64, hi: &mut u64, lo: &mut u64) -> bool;
    fn int128_c_not(ah: u64, al: u64, hi: &mut u64, lo: &mut u64) -> bool;
    fn int128_c_lt(ah: u64, al: u64, bh: u64, bl: u64) -> bool;
    fn int128_c_fits(ah: u64, al: u64, short: bool, unsigned: bool) -> bool;
}

macro_rules! binary {
    ($f:ident) => {{
        extern "C" fn call(ah: u64, al: u64, bh: u64, bl: u64, hi: &mut u64, lo: &mut u64) -> bool {
            unsafe { $f(ah, al, bh, bl, hi, lo) }
        }
        call as Binary
    }};
}

macro_rules! unary {
    ($f:ident) => {{
        extern "C" fn call(ah: u64, al: u64, hi: &mut u64, lo: &mut u64) -> bool {
            unsafe { $f(ah, al, hi, lo) }
        }
        call as Unary
    }};
}

fn halves(x: i128) -> (u64, u64) {
    ((x as u128 >> 64) as u64, x as u64)
}

fn answer(some: bool, hi: u64, lo: u64) -> Option<i128> {
    some.then_some(((hi as u128) << 64 | lo as u128) as i128)
}

fn apply(f: Binary, a: i128, b: i128) -> Option<i128> {
    let ((ah, al), (bh, bl)) = (halves(a), halves(b));
    let (mut hi, mut lo) = (0, 0);
    let some = f(ah, al, bh, bl, &mut hi, &mut lo);
    answer(some, hi, lo)
}

fn apply_one(f: Unary, a: i128) -> Option<i128> {
    let (ah, al) = halves(a);
    let (mut hi, mut lo) = (0, 0);
    let some = f(ah, al, &mut hi, &mut lo);
    answer(some, hi, lo)
}

/// The count as Krc takes it: first as a u32.
fn shl(a: i128, b: i128) -> Option<i128> {
    u32::try_from(b).ok().and_then(|n| a.checked_shl(n))
}

fn shr(a: i128, b: i128) -> Option<i128> {
    u32::try_from(b).ok().and_then(|n| a.checked_shr(n))
}

/// The four ranges of int_fits.
fn fits(x: i128, short: bool, unsigned: bool) -> bool {
    match (short, unsigned) {
        (true, false) => i32::try_from(x).is_ok(),
        (true, true) => u32::try_from(x).is_ok(),
        (false, false) => i64::try_from(x).is_ok(),
        (false, true) => u64::try_from(x).is_ok(),
    }
}

/// SplitMix64: a fixed sequence, so that a run can be repeated.
struct Random(u64);

impl Random {
    fn next(&mut self) -> u64 {
        self.0 = self.0.wrapping_add(0x9e37_79b9_7f4a_7c15);
        let mut z = self.0;
        z = (z ^ (z >> 30)).wrapping_mul(0xbf58_476d_1ce4_e5b9);
        z = (z ^ (z >> 27)).wrapping_mul(0x94d0_49bb_1331_11eb);
        z ^ (z >> 31)
    }

    /// Of any length in bits, so that small numbers are as frequent as large ones.
    fn number(&mut self) -> i128 {
        let x = ((self.next() as u128) << 64 | self.next() as u128) as i128;
        x >> (self.next() % 128)
    }
}

fn boundary() -> Vec<i128> {
    let mut all = vec![0, 1, -1, i128::MAX, i128::MIN, i128::MAX - 1, i128::MIN + 1];
    for k in 0..127 {
        let p = 1i128 << k;
        all.extend([p - 1, p, p + 1, -p - 1, -p, -p + 1]);
    }
    all.extend(-1..=129);
    all.sort_unstable();
    all.dedup();
    all
}

type Reference = fn(i128, i128) -> Option<i128>;

fn operations() -> Vec<(&'static str, Binary, Reference)> {
    vec![
        ("add", binary!(int128_c_add), |a, b| a.checked_add(b)),
        ("sub", binary!(int128_c_sub), |a, b| a.checked_sub(b)),
        ("mul", binary!(int128_c_mul), |a, b| a.checked_mul(b)),
        ("div", binary!(int128_c_div), |a, b| a.checked_div(b)),
        ("rem", binary!(int128_c_rem), |a, b| a.checked_rem(b)),
        ("and", binary!(int128_c_and), |a, b| Some(a & b)),
        ("or", binary!(int128_c_or), |a, b| Some(a | b)),
        ("xor", binary!(int128_c_xor), |a, b| Some(a ^ b)),
        ("shl", binary!(int128_c_shl), shl),
        ("shr", binary!(int128_c_shr), shr),
    ]
}

fn differences(pairs: &[(i128, i128)]) -> u64 {
    let mut found = 0;
    let mut tell = |name: &str, a: i128, b: i128| {
        found += 1;
        if found <= 20 {
            println!("difference: {name} {a} {b}");
        }
    };
    let operations = operations();
    for &(a, b) in pairs {
        for (name, ours, theirs) in &operations {
            if apply(*ours, a, b) != theirs(a, b) {
                tell(name, a, b);
            }
            if name.starts_with("sh") {
                let n = b.rem_euclid(131) - 1;
                if apply(*ours, a, n) != theirs(a, n) {
                    tell(name, a, n);
                }
            }
        }
        if apply_one(unary!(int128_c_neg), a) != a.checked_neg() {
            tell("neg", a, 0);
        }
        if apply_one(unary!(int128_c_not), a) != Some(!a) {
            tell("not", a, 0);
        }
        let ((ah, al), (bh, bl)) = (halves(a), halves(b));
        if unsafe { int128_c_lt(ah, al, bh, bl) } != (a < b) {
            tell("lt", a, b);
        }
        for (short, unsigned) in [(true, false), (true, true), (false, false), (false, true)] {
            if unsafe { int128_c_fits(ah, al, short, unsigned) } != fits(a, short, unsigned) {
                tell("fits", a, 0);
            }
        }
    }
    found
}

/// Nanoseconds an operation: the best of many short rounds, so that another program on the machine counts for little.
fn nanoseconds(pairs: &[(i128, i128)], mut f: impl FnMut(i128, i128)) -> f64 {
    let mut best = f64::MAX;
    for _ in 0..200 {
        let start = Instant::now();
        for &(a, b) in pairs {
            f(a, b);
        }
        best = best.min(start.elapsed().as_nanos() as f64 / pairs.len() as f64);
    }
    best
}

#[inline(never)]
fn reference(f: Reference, a: i128, b: i128) -> Option<i128> {
    f(a, b)
}

fn main() {
    let count: usize = std::env::args().nth(1).map_or(1_000_000, |n| n.parse().expect("a number of pairs"));
    let ends = boundary();
    let mut pairs: Vec<(i128, i128)> = ends.iter().flat_map(|&a| ends.iter().map(move |&b| (a, b))).collect();
    let boundary_pairs = pairs.len();
    let mut random = Random(1);
    while pairs.len() < boundary_pairs + count {
        pairs.push((random.number(), random.number()));
    }
    let found = differences(&pairs);
    println!("{boundary_pairs} boundary pairs and {count} random pairs: {found} differences");
    println!("nanoseconds an operation     int128     i128");
    let sample = &pairs[boundary_pairs..boundary_pairs + count.min(5000)];
    for (name, ours, theirs) in operations() {
        let counted: Vec<(i128, i128)> = match name.starts_with("sh") {
            true => sample.iter().map(|&(a, b)| (a, b.rem_euclid(128))).collect(),
            false => sample.to_vec(),
        };
        let mine = nanoseconds(&counted, |a, b| {
            black_box(apply(black_box(ours), a, b));
        });
        let rust = nanoseconds(&counted, |a, b| {
            black_box(reference(black_box(theirs), a, b));
        });
        println!("{name:<25} {mine:>9.1} {rust:>8.1}");
    }
    if found != 0 {
        std::process::exit(1);
    }
}
