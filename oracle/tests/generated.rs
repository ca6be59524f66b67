//! What the generator is meant to give, and that no generated tree raises an internal error.

use std::collections::BTreeMap;

use oracle::convert::try_convert;
use oracle::generate::list::cases;
use oracle::generate::misses::NUMBERS;
use oracle::{Answer, classes, generate, judge};

fn number(seed: u64, class: &str) -> u32 {
    let case = generate(seed, class);
    match try_convert(&case.tree, &case.text, case.needs_main, case.lens) {
        Ok(answer) => answer.number(),
        Err(message) => panic!("{}: {message}", case.label),
    }
}

#[test]
fn near_misses_hit() {
    // The program around a fault is random and may, rarely, be refused itself.
    let missed = |seed: &u64| number(*seed, "miss") != NUMBERS[*seed as usize % NUMBERS.len()];
    let missed: Vec<u64> = (0..960).filter(missed).collect();
    assert!(missed.len() <= 10, "off the mark: {missed:?}");
}

#[test]
fn programs_convert() {
    let converted = (0..400).filter(|seed| number(*seed, "program") == 0).count();
    assert!(converted > 380, "{converted} of 400");
}

#[test]
fn dense_trees_convert() {
    for seed in 0..12 {
        assert_eq!(number(seed, "dense"), 0, "dense {seed}");
    }
}

#[test]
fn every_number_comes_up() {
    let mut numbers = BTreeMap::new();
    for at in 0..4000u64 {
        let class = classes()[at as usize % classes().len()];
        *numbers.entry(number(at / classes().len() as u64, class)).or_insert(0) += 1;
    }
    for wanted in 0..=27 {
        assert!(numbers.get(&wanted).is_some_and(|count| *count >= 5), "{wanted}: {numbers:?}");
    }
}

#[test]
fn same_seed_same_case() {
    for class in classes() {
        let (one, two) = (generate(5, class), generate(5, class));
        assert!(one.tree == two.tree && one.text == two.text && one.lens == two.lens);
    }
}

#[test]
fn judge_and_convert_agree_before_conversion() {
    for at in 0..600u64 {
        let case = generate(at, ["damage", "lengths", "buffers", "deep", "bytes"][at as usize % 5]);
        let answer = try_convert(&case.tree, &case.text, case.needs_main, case.lens).unwrap();
        match judge(&case.tree, &case.text, case.lens) {
            Err(refusal) => assert_eq!(answer, Answer::Refused(refusal)),
            Ok(()) => assert!(!(24..=26).contains(&answer.number())),
        }
    }
}

#[test]
fn the_list_has_each_answer() {
    let cases = cases(1, 150);
    let size: usize = cases.iter().map(|case| case.tree.len() + case.text.len() + 52).sum();
    // Three trees are at the limit on records.
    assert!(size < 2_200_000, "{size} bytes");
    let mut numbers = BTreeMap::new();
    for case in &cases {
        let answer = judge(&case.tree, &case.text, case.lens)
            .err()
            .map_or((0, false), |r| (r.number, r.place != u32::MAX));
        *numbers.entry(answer).or_insert(0) += 1;
    }
    for wanted in [(0, false), (24, false), (24, true), (25, true), (26, false)] {
        assert!(numbers.get(&wanted).is_some_and(|count| *count >= 4), "{wanted:?}: {numbers:?}");
    }
}
