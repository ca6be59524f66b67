//! Two builds of this program, each with a library of its own, run in turn: before and after stand side by side.

use std::process::Command;

use crate::{hostile, time};

/// The words before their rows.
const WORDS: [&str; 2] = ["before", "after"];

fn run(program: &str, words: &[String]) -> u64 {
    match Command::new(program).args(words).status() {
        Ok(status) => u64::from(!status.success()),
        Err(err) => {
            eprintln!("{program}: {err}");
            1
        }
    }
}

/// The rows of both programs for the same options.
fn rows(programs: [&str; 2], words: &[String]) -> u64 {
    let both = WORDS.into_iter().zip(programs);
    both.map(|(word, program)| run(program, &[words, &["--rows".to_string(), word.to_string()]].concat()))
        .sum()
}

/// A table for each make of `time`: at each size and nesting the rows of both.
pub fn time(programs: [&str; 2], options: &time::Options) -> u64 {
    let mut failed = 0;
    for make in &options.makes {
        println!("\n{}: {}\n\n| library {}\n|---{}", make.name, make.what, time::HEAD, time::LINE);
        for (size, nesting) in options.rows_of(make) {
            let mut words = ["time", "--makes", make.name].map(str::to_string).to_vec();
            let numbers =
                [("--sizes", size), ("--rounds", options.rounds), ("--trees", options.trees)].into_iter();
            for (name, number) in numbers.chain(nesting.map(|nesting| ("--nestings", nesting))) {
                words.extend([name.to_string(), number.to_string()]);
            }
            failed += rows(programs, &words);
        }
    }
    failed
}

/// The table of `hostile`: for each attack the rows of both, each with the worst tree found for it.
pub fn hostile(programs: [&str; 2], options: &hostile::Options) -> u64 {
    println!("| library {}\n|---{}", hostile::HEAD, hostile::LINE);
    let limit = options.limit.as_secs().to_string();
    let sizes: Vec<String> = options.sizes.iter().map(usize::to_string).collect();
    let each = options.attacks.iter().flat_map(|attack| sizes.iter().map(move |size| (attack.name, size)));
    let run = |(name, size): (&str, &String)| {
        let words = ["hostile", "--attacks", name, "--sizes", size, "--limit", &limit];
        rows(programs, &words.map(str::to_string))
    };
    each.map(run).sum()
}
