//! Writes generated trees with the oracle's answers, one to a line, for tools/compare-definitions:
//! label | 1 if main is needed | tree | text | 0, the seventh count and six tables, or number, place, span.
//!
//! definitions CLASS SEED N LEAST MOST: of that class, the first N accepted trees of LEAST to MOST records.
//! definitions file TREE TEXT [--main]: the tree of these two files.

use std::{env, fs};

use oracle::convert::{Held, held};
use oracle::{Answer, generate, needed};

/// Seeds tried for each tree that is wanted.
const TRIES: u64 = 60;

fn hex(bytes: &[u8]) -> String {
    bytes.iter().map(|byte| format!("{byte:02x}")).collect()
}

fn answer_text(held: &Held) -> String {
    match &held.answer {
        Answer::Converted(tables) => {
            let tables = tables.in_order().map(|table| format!(" {}.", hex(table)));
            format!("0 {}{}", held.visits, tables.concat())
        }
        Answer::Refused(r) => format!("{} {} {} {}", r.number, r.place, r.start, r.end),
    }
}

/// The line of a tree, unless it is refused before conversion.
fn line(label: &str, main: bool, tree: &[u8], text: &[u8], lens: [usize; 7]) -> Option<String> {
    let held = match held(tree, text, main, lens) {
        Ok(held) => held,
        Err(message) => panic!("{label}: {message}"),
    };
    if (24..=26).contains(&held.answer.number()) {
        return None;
    }
    let main = u8::from(main);
    Some(format!("{label}|{main}|{}|{}|{}", hex(tree), hex(text), answer_text(&held)))
}

fn write_class(class: &str, seed: u64, wanted: u64, least: usize, most: usize) {
    let mut found = 0;
    for at in 0..wanted * TRIES {
        if found == wanted {
            break;
        }
        let case = generate(seed + at, class);
        if !(least * 32..=most * 32).contains(&case.tree.len()) {
            continue;
        }
        if let Some(line) = line(&case.label, case.needs_main, &case.tree, &case.text, case.lens) {
            println!("{line}");
            found += 1;
        }
    }
}

fn write_file(tree: &str, text: &str, main: bool) {
    let read = |path: &str| fs::read(path).unwrap_or_else(|err| panic!("{path}: {err}"));
    let (bytes, text) = (read(tree), read(text));
    match line(tree, main, &bytes, &text, needed(bytes.len())) {
        Some(line) => println!("{line}"),
        None => eprintln!("{tree}: refused before conversion"),
    }
}

fn main() {
    let args: Vec<String> = env::args().skip(1).collect();
    if let [mode, tree, text, options @ ..] = &args[..]
        && mode == "file"
    {
        return write_file(tree, text, options.iter().any(|option| option == "--main"));
    }
    let number = |i: usize| args.get(i).and_then(|text| text.parse::<u64>().ok());
    let (Some(class), Some(seed), Some(wanted), Some(least), Some(most)) =
        (args.first(), number(1), number(2), number(3), number(4))
    else {
        eprintln!("usage: definitions CLASS SEED N LEAST MOST | file TREE TEXT [--main]");
        std::process::exit(1);
    };
    write_class(class, seed, wanted, least as usize, most as usize);
}
