//! The command `oracle`.

use std::collections::BTreeMap;
use std::path::Path;
use std::process::ExitCode;
use std::{env, fs};

use oracle::convert::{Held, held, try_convert};
use oracle::generate::call_list;
use oracle::generate::list::{bytes, cases};
use oracle::program::Build;
use oracle::slips;
use oracle::source::source_text;
use oracle::tally::Tally;
use oracle::tree::Tree;
use oracle::yardstick::{lost_shifts, typed_calls};
use oracle::{Answer, Case, classes, forms, generate, judge, needed, show};

const USAGE: &str = "oracle judge TREE TEXT | convert TREE TEXT [--main] [--long] | show TREE TEXT [--main] |
    yardstick TREE TEXT | gen SEED CLASS DIR | count N SEED [CLASS] | list judge SEED N FILE |
    list convert SEED N FILE VECTORS | check FILE | slips FILE | forms N SEED CLASS | forms FILE | classes";

/// What document 01's program takes at most.
const MOST_TREE_BYTES: usize = 6400;
const MOST_TEXT_BYTES: usize = 4096;

fn read(path: &str) -> Result<Vec<u8>, String> {
    fs::read(path).map_err(|err| format!("{path}: {err}"))
}

fn judge_files(tree: &str, text: &str) -> Result<(), String> {
    let (tree, text) = (read(tree)?, read(text)?);
    match judge(&tree, &text, needed(tree.len())) {
        Ok(()) => println!("accepted"),
        Err(refusal) => println!("{}", Answer::Refused(refusal).line()),
    }
    Ok(())
}

fn convert_files(tree: &str, text: &str, options: &[&str]) -> Result<(), String> {
    let (tree, text) = (read(tree)?, read(text)?);
    let long = tree.len() > MOST_TREE_BYTES || text.len() > MOST_TEXT_BYTES;
    if long && !options.contains(&"--long") {
        println!("toolong");
        return Ok(());
    }
    let answer = try_convert(&tree, &text, options.contains(&"--main"), needed(tree.len()))?;
    println!("{}", answer.line());
    Ok(())
}

fn show_files(tree: &str, text: &str, options: &[&str]) -> Result<(), String> {
    let (bytes, text) = (read(tree)?, read(text)?);
    let tree = Tree::new(&bytes, &text);
    print!("{}", show::tree_text(&tree));
    if judge(&bytes, &text, needed(bytes.len())).is_ok() {
        print!("\n{}\n", source_text(&tree));
    }
    println!("{}", yardstick_line(&bytes, &text));
    let held = held(&bytes, &text, options.contains(&"--main"), needed(bytes.len()))?;
    match held.answer {
        Answer::Converted(tables) => {
            print!("{}", show::tables_text(&tables, &|at| format!("#{at}")));
            println!("expressions typed: {}", held.visits);
        }
        Answer::Refused(refusal) => print!("{}", show::refusal_text(&tree, &refusal)),
    }
    Ok(())
}

/// Prints what a tree is held to, and with the amended definition the shifts and calls that are the reason.
fn yardstick_of_files(tree: &str, text: &str) -> Result<(), String> {
    let (bytes, text) = (read(tree)?, read(text)?);
    println!("{}", yardstick_line(&bytes, &text));
    Ok(())
}

fn yardstick_line(bytes: &[u8], text: &[u8]) -> String {
    if judge(bytes, text, needed(bytes.len())).is_err() {
        return "refused before conversion".to_string();
    }
    let tree = Tree::new(bytes, text);
    match (&lost_shifts(&Build::new(&tree))[..], &typed_calls(&tree)[..]) {
        ([], []) => "held to the Rust".to_string(),
        (lost, []) => format!("held to the amended definition, for the shifts {lost:?}"),
        ([], typed) => format!("held to the amended definition, for the calls {typed:?}"),
        (lost, typed) => {
            format!("held to the amended definition, for the shifts {lost:?} and the calls {typed:?}")
        }
    }
}

fn number(text: &str) -> Result<u64, String> {
    text.parse().map_err(|_| format!("{text}: a number is wanted"))
}

fn gen_files(seed: &str, class: &str, dir: &str) -> Result<(), String> {
    if !classes().contains(&class) {
        return Err(format!("{class}: no such class; there are {}", classes().join(" ")));
    }
    let case = generate(number(seed)?, class);
    for (name, bytes) in [("tree.bin", &case.tree), ("text.bin", &case.text)] {
        fs::write(Path::new(dir).join(name), bytes).map_err(|err| format!("{dir}/{name}: {err}"))?;
    }
    println!("{}{}", case.label, if case.needs_main { " --main" } else { "" });
    Ok(())
}

/// What came of trees: by number how many were held to which yardstick, and by pairs of numbers where the Rust answers otherwise.
#[derive(Default)]
struct Counts {
    all: Tally,
    numbers: BTreeMap<u32, Tally>,
    otherwise: BTreeMap<(u32, u32), u64>,
}

impl Counts {
    fn add(&mut self, case: &Case) -> Result<Held, String> {
        let held = held(&case.tree, &case.text, case.needs_main, case.lens)?;
        let number = held.answer.number();
        self.all.add(&held);
        self.numbers.entry(number).or_default().add(&held);
        if let Some(rust) = &held.otherwise {
            *self.otherwise.entry((rust.number(), number)).or_default() += 1;
        }
        Ok(held)
    }

    fn print(&self) {
        println!("{} trees: {}", self.all.total(), self.all);
        for (number, tally) in &self.numbers {
            let amended = tally.all_amended();
            let split = if amended > 0 { format!(", {amended} of them amended") } else { String::new() };
            println!("{number:2} {}{split}", tally.total());
        }
        if !self.otherwise.is_empty() {
            println!("where the Rust answers otherwise:");
        }
        for ((rust, amended), count) in &self.otherwise {
            println!("{rust:2} -> {amended:2} {count}");
        }
    }
}

/// Converts `n` generated trees, and prints what came of them.
fn count(n: &str, seed: &str, class: Option<&str>) -> Result<(), String> {
    let (n, seed) = (number(n)?, number(seed)?);
    let mut counts = Counts::default();
    for at in 0..n {
        // Each class takes the seeds one by one, so that what a class does in turn comes up whole.
        let turn = if class.is_some() { at } else { at / classes().len() as u64 };
        let class = class.unwrap_or(classes()[at as usize % classes().len()]);
        let case = generate(seed.wrapping_mul(1_000_003).wrapping_add(turn), class);
        counts.add(&case).map_err(|message| format!("internal error: {}: {message}", case.label))?;
    }
    counts.print();
    Ok(())
}

fn list(seed: &str, n: &str, file: &str) -> Result<(), String> {
    let cases = cases(number(seed)?, number(n)? as usize);
    let bytes = bytes(&cases);
    let mut numbers: BTreeMap<(u32, bool), u32> = BTreeMap::new();
    for case in &cases {
        let refusal = judge(&case.tree, &case.text, case.lens).err();
        *numbers.entry(refusal.map_or((0, false), |r| (r.number, r.place != u32::MAX))).or_default() += 1;
    }
    println!("{} cases, {} bytes", cases.len(), bytes.len());
    for ((number, placed), count) in numbers {
        println!("{number:2} {count}{}", if placed { " with a place" } else { "" });
    }
    fs::write(file, bytes).map_err(|err| format!("{file}: {err}"))
}

/// The list for the whole call, with all trees of a file of vectors.
fn list_convert(seed: &str, n: &str, file: &str, vectors: &str) -> Result<(), String> {
    let vectors = fs::read_to_string(vectors).map_err(|err| format!("{vectors}: {err}"))?;
    let cases = call_list::cases(number(seed)?, number(n)? as usize, &vectors)?;
    let bytes = call_list::bytes(&cases)?;
    let mut counts = Counts::default();
    for case in &cases {
        counts.add(case)?;
    }
    println!("{} cases, {} bytes", cases.len(), bytes.len());
    counts.print();
    fs::write(file, bytes).map_err(|err| format!("{file}: {err}"))
}

/// Prints the cases of a list for the whole call, counted from 0, in which the oracle does not say what is stored, and what came of all;
/// any such case is an error.
fn check(file: &str) -> Result<(), String> {
    let list = read(file)?;
    let (mut counts, mut differ) = (Counts::default(), 0);
    for (at, stored) in slips::stored(&list).iter().enumerate() {
        let case = stored.case();
        let held = counts.add(&case)?;
        if call_list::entry(at, &case, &held) != stored.bytes {
            differ += 1;
            let (was, is) = (stored.answer, held.words());
            println!("{at}: {was:?} stored, the oracle says {is:?}");
        }
    }
    counts.print();
    if differ > 0 { Err(format!("{differ} cases are not what the oracle says")) } else { Ok(()) }
}

/// Slips in the rules before conversion and in what is left behind, held against a list for the whole call.
fn try_slips(file: &str) -> Result<(), String> {
    let list = read(file)?;
    let cases = slips::stored(&list);
    let (left, left_missed) = slips::leaves::unnoticed(&cases);
    let missed = slips::unnoticed(&cases);
    missed.iter().chain(&left_missed).for_each(|name| println!("{name}"));
    let (rules, misread) = (slips::slips().len(), slips::misread(&cases));
    println!("{} cases, {misread} misread without a slip", cases.len());
    println!("{rules} slips in the rules, {} not noticed", missed.len());
    println!("{left} slips in what is left behind, {} not noticed", left_missed.len());
    Ok(())
}

/// How many of these cases hold each rare form and convert.
fn count_forms(cases: impl Iterator<Item = Case>) -> Result<(), String> {
    let (mut counts, mut converted) = (BTreeMap::new(), 0);
    for case in cases {
        let answer = try_convert(&case.tree, &case.text, case.needs_main, case.lens)?;
        if let Answer::Converted(tables) = answer {
            converted += 1;
            for form in forms::forms(&Tree::new(&case.tree, &case.text), &tables) {
                *counts.entry(form).or_insert(0) += 1;
            }
        }
    }
    println!("{converted} trees convert");
    for form in forms::known() {
        println!("{:6} {form}", counts.get(&form).unwrap_or(&0));
    }
    Ok(())
}

fn forms_of_class(n: &str, seed: &str, class: &str) -> Result<(), String> {
    let (n, seed) = (number(n)?, number(seed)?);
    count_forms((0..n).map(|at| generate(seed.wrapping_mul(1_000_003).wrapping_add(at), class)))
}

fn run(args: &[&str]) -> Result<(), String> {
    match args {
        ["judge", tree, text] => judge_files(tree, text),
        ["convert", tree, text, options @ ..] => convert_files(tree, text, options),
        ["show", tree, text, options @ ..] => show_files(tree, text, options),
        ["yardstick", tree, text] => yardstick_of_files(tree, text),
        ["gen", seed, class, dir] => gen_files(seed, class, dir),
        ["count", n, seed] => count(n, seed, None),
        ["count", n, seed, class] => count(n, seed, Some(class)),
        ["list", "judge", seed, n, file] => list(seed, n, file),
        ["list", "convert", seed, n, file, vectors] => list_convert(seed, n, file, vectors),
        ["forms", n, seed, class] => forms_of_class(n, seed, class),
        ["forms", file] => count_forms(slips::stored(&read(file)?).iter().map(slips::Stored::case)),
        ["check", file] => check(file),
        ["slips", file] => try_slips(file),
        ["classes"] => {
            println!("{}", classes().join(" "));
            Ok(())
        }
        _ => Err(format!("usage: {USAGE}")),
    }
}

fn main() -> ExitCode {
    let args: Vec<String> = env::args().skip(1).collect();
    let args: Vec<&str> = args.iter().map(String::as_str).collect();
    match run(&args) {
        Ok(()) => ExitCode::SUCCESS,
        Err(message) => {
            eprintln!("oracle: {message}");
            ExitCode::FAILURE
        }
    }
}
