//! The conversion call beside the oracle: the same answers and bytes, and its time beside that of Krc's `convert`.

mod attacks;
mod beside;
mod clock;
mod compare;
mod hostile;
mod makes;
mod time;

use std::time::Duration;

use attacks::{ATTACKS, Attack, Knobs};
use hostile::Measure;
use makes::{MAKES, Make, NESTINGS, is_nesting};
use oracle::classes;
use oracle::judge::MOST_RECORDS;

const USAGE: &str = "usage: convert-bench compare [N [SEED [DIR]]] [--class CLASS]
       convert-bench time [--makes A,B] [--sizes N,N] [--nestings N,N] [--rounds N] [--trees N] [--rows WORD]
       convert-bench hostile [--attacks A,B] [--sizes N,N] [--limit SECONDS] [--rows WORD]
       convert-bench beside PROGRAM PROGRAM time|hostile [OPTIONS]
       convert-bench alone call|judge|krc ATTACK RECORDS TEXT SHARE DEPTH SECONDS
       convert-bench repeat MAKE SIZE TREES ROUNDS
       convert-bench one TREE TEXT";

fn stop() -> ! {
    eprintln!("{USAGE}");
    std::process::exit(2)
}

fn number<T: std::str::FromStr>(word: &str) -> T {
    word.parse().unwrap_or_else(|_| stop())
}

fn make(word: &str) -> &'static Make {
    makes::by_name(word).unwrap_or_else(|| stop())
}

fn nesting(word: &str) -> usize {
    Some(number(word)).filter(|nesting| is_nesting(*nesting)).unwrap_or_else(|| stop())
}

fn attack(word: &str) -> &'static Attack {
    attacks::by_name(word).unwrap_or_else(|| stop())
}

/// The options of `compare`: up to three words in a fixed order, then maybe a class.
fn compare_options<'o>(words: &[&'o str]) -> compare::Options<'o> {
    let (words, class) = match *words {
        [ref before @ .., "--class", class] if classes().contains(&class) => (before, Some(class)),
        _ => (words, None),
    };
    let mut options = compare::Options { trees: 100_000, seed: 1, class, folder: "target/differ" };
    match *words {
        [] => {}
        [trees] => options.trees = number(trees),
        [trees, seed] => (options.trees, options.seed) = (number(trees), number(seed)),
        [trees, seed, folder] => {
            (options.trees, options.seed, options.folder) = (number(trees), number(seed), folder);
        }
        _ => stop(),
    }
    options
}

/// The options of `time`, in pairs of a name and a value.
fn time_options(words: &[&str]) -> time::Options {
    let (makes, sizes) = (MAKES.iter().collect(), vec![50, 200, 500, 1000, 2000, 4000, 9000, MOST_RECORDS]);
    let nestings = NESTINGS.to_vec();
    let mut options = time::Options { makes, sizes, nestings, rounds: 800, trees: 32, rows: None };
    for pair in words.chunks(2) {
        match *pair {
            ["--makes", names] => options.makes = names.split(',').map(make).collect(),
            ["--sizes", sizes] => options.sizes = sizes.split(',').map(number).collect(),
            ["--nestings", nestings] => options.nestings = nestings.split(',').map(nesting).collect(),
            ["--rounds", rounds] => options.rounds = number(rounds),
            ["--trees", trees] => options.trees = number(trees),
            ["--rows", word] => options.rows = Some(word.to_string()),
            _ => stop(),
        }
    }
    options
}

fn hostile_options(words: &[&str]) -> hostile::Options {
    let (attacks, limit) = (ATTACKS.iter().collect(), Duration::from_secs(2));
    let mut options = hostile::Options { attacks, limit, sizes: vec![2000, MOST_RECORDS], rows: None };
    for pair in words.chunks(2) {
        match *pair {
            ["--attacks", names] => options.attacks = names.split(',').map(attack).collect(),
            ["--sizes", sizes] => options.sizes = sizes.split(',').map(number).collect(),
            ["--limit", seconds] => options.limit = Duration::from_secs(number(seconds)),
            ["--rows", word] => options.rows = Some(word.to_string()),
            _ => stop(),
        }
    }
    options
}

fn main() {
    let words: Vec<String> = std::env::args().skip(1).collect();
    let words: Vec<&str> = words.iter().map(String::as_str).collect();
    let differ = match words[..] {
        ["compare", ref rest @ ..] => compare::compare(&compare_options(rest)),
        ["time", ref rest @ ..] => time::time(&time_options(rest)),
        ["hostile", ref rest @ ..] => hostile::hostile(&hostile_options(rest)),
        ["beside", before, after, "time", ref rest @ ..] => {
            beside::time([before, after], &time_options(rest))
        }
        ["beside", before, after, "hostile", ref rest @ ..] => {
            beside::hostile([before, after], &hostile_options(rest))
        }
        ["alone", measure, name, records, text, share, depth, limit] => {
            let [records, text, share, depth] = [records, text, share, depth].map(number);
            let knobs = Knobs { records, text, share, depth };
            let measure = Measure::by_name(measure).unwrap_or_else(|| stop());
            hostile::alone(measure, attack(name), knobs, Duration::from_secs(number(limit)))
        }
        ["repeat", name, size, trees, rounds] => {
            time::repeat(make(name), number(size), number(trees), number(rounds))
        }
        ["one", tree, text] => time::one(tree, text),
        _ => stop(),
    };
    std::process::exit(i32::from(differ > 0));
}
