//! Trees from a seed: the same seed and class give the same case on every machine.

pub mod beside;
pub mod broken;
pub mod call_list;
pub mod constants;
pub mod damage;
pub mod list;
pub mod misses;
pub mod odd;
pub mod pieces;
pub mod programs;
pub mod rare;
pub mod rng;
pub mod shapes;
pub mod shifts;
pub mod soup;
pub mod typed;

use crate::ast::{Fun, Layout};
use crate::judge::{FEWEST_RECORDS, MOST_RECORDS, MOST_RECORDS_ONCE, needed};
use crate::tree::RECORD_BYTES;
use programs::Maker;
use rng::Rng;

#[derive(Clone, Debug)]
pub struct Case {
    pub tree: Vec<u8>,
    pub text: Vec<u8>,
    pub needs_main: bool,
    pub lens: [usize; 7],
    pub label: String,
}

const CLASSES: [&str; 18] = [
    "program",
    "near",
    "miss",
    "soup",
    "integers",
    "floats",
    "shifts",
    "damage",
    "damage-each",
    "lengths",
    "buffers",
    "deep",
    "dense",
    "bytes",
    "rare",
    "broken",
    "typed",
    "large",
];

/// The names of the classes.
pub fn classes() -> &'static [&'static str] {
    &CLASSES
}

/// The case of this seed and class; an unknown class is taken as `program`.
pub fn generate(seed: u64, class: &str) -> Case {
    let salt = class.bytes().fold(0u64, |salt, byte| salt.wrapping_mul(31).wrapping_add(u64::from(byte)));
    let mut rng = Rng::new(seed ^ salt << 40);
    let mut case = match class {
        "near" => {
            let wrong = [8, 20, 50, 150][rng.below(4)];
            program(&mut rng, wrong)
        }
        "miss" => miss(&mut rng, seed),
        "soup" => whole(soup::layout(&mut rng)),
        "integers" => laid_out(&mut rng, &constants::program(&mut seeded(seed), false)),
        "floats" => laid_out(&mut rng, &constants::program(&mut seeded(seed), true)),
        "shifts" => laid_out(&mut rng, &shifts::program(&mut seeded(seed), seed % 2 == 1)),
        "damage" => damaged(&mut rng),
        "damage-each" => damaged_each(seed),
        "lengths" => lengths(&mut rng),
        "buffers" => buffers(&mut rng, seed),
        "deep" => laid_out(&mut rng, &shapes::deep(&mut seeded(seed))),
        "dense" => dense(&mut rng, seed),
        "large" => large(&mut rng),
        "bytes" => random_bytes(&mut rng),
        "broken" => broken::all()[seed as usize % broken::all().len()].clone(),
        "typed" => laid_out(&mut rng, &typed::program(&mut seeded(seed), seed % 4 == 3)),
        "rare" => laid_out(&mut rng, &rare::program(&mut seeded(seed), seed as usize)),
        _ => program(&mut rng, 0),
    };
    case.label = format!("{class} {seed} {}", case.label).trim_end().to_string();
    case
}

fn seeded(seed: u64) -> Rng {
    Rng::new(seed.wrapping_mul(3) + 1)
}

/// A layout as a case, with buffers that just suffice.
pub fn whole(layout: Layout) -> Case {
    let tree = layout.tree();
    let lens = needed(tree.len());
    Case { tree, text: layout.text, needs_main: false, lens, label: String::new() }
}

/// A program laid out in one of four ways.
fn laid_out(rng: &mut Rng, functions: &[Fun]) -> Case {
    let mut layout = Layout { share_texts: rng.flip(), interleave: rng.flip(), ..Layout::default() };
    layout.add(functions);
    whole(layout)
}

fn program(rng: &mut Rng, wrong: usize) -> Case {
    let budget = 10 + rng.below(120);
    let functions = Maker::new(rng, wrong, budget).program();
    let main = functions.iter().any(|func| func.name == b"main");
    let needs_main = (main || wrong > 0 && rng.chance(5)) && rng.flip();
    Case { needs_main, ..laid_out(rng, &functions) }
}

fn miss(rng: &mut Rng, seed: u64) -> Case {
    let number = misses::NUMBERS[seed as usize % misses::NUMBERS.len()];
    let functions = misses::program(rng, number);
    let label = format!("for {number}");
    Case { needs_main: number == 10, label, ..laid_out(rng, &functions) }
}

/// One in sixteen at the limit, the others at the one of before.
fn dense(rng: &mut Rng, seed: u64) -> Case {
    let most = if seed / 6 % 16 == 7 { MOST_RECORDS } else { MOST_RECORDS_ONCE };
    laid_out(rng, &shapes::dense(&mut seeded(seed), seed as usize % 6, most))
}

/// Programs side by side, each with functions of its own, some with parts taken without regard to their place; one in sixteen of any size up to the limit, the others smaller.
fn large(rng: &mut Rng) -> Case {
    let most = if rng.below(16) == 0 { MOST_RECORDS } else { 5 * MOST_RECORDS_ONCE / 2 };
    let size = MOST_RECORDS_ONCE / 2 + rng.below(most - MOST_RECORDS_ONCE / 2 + 1);
    let wrong = [0, 0, 0, 1][rng.below(4)];
    let functions = beside::programs(rng, size - FEWEST_RECORDS, wrong);
    laid_out(rng, &functions)
}

fn damaged(rng: &mut Rng) -> Case {
    let functions = match rng.below(3) {
        0 => damage::every_kind(),
        1 => damage::small_good(rng.below(8)),
        _ => Maker::new(rng, 0, 20).program(),
    };
    let mut layout = Layout { share_texts: rng.flip(), interleave: rng.flip(), ..Layout::default() };
    layout.add(&functions);
    damage::random(rng, &mut layout);
    whole(layout)
}

fn damaged_each(seed: u64) -> Case {
    let mut layout = Layout::program(&damage::every_kind());
    let way = seed as usize % damage::ways(layout.records.len());
    damage::damage(&mut layout, way);
    whole(layout)
}

fn lengths(rng: &mut Rng) -> Case {
    let bounds = [FEWEST_RECORDS, MOST_RECORDS_ONCE, MOST_RECORDS].map(|bound| [bound - 1, bound, bound + 1]);
    let sizes = [bounds.as_flattened(), &[14, 15, 16, 40]].concat();
    let records = sizes[rng.below(sizes.len())];
    let mut case = whole(shapes::of_records(rng, records.max(12)));
    case.tree.truncate(records * RECORD_BYTES);
    match rng.below(6) {
        0 => case.tree.push(0),
        1 => _ = case.tree.pop(),
        2 if rng.chance(20) => case.tree.clear(),
        3 if rng.chance(20) => case.text.clear(),
        _ => {}
    }
    Case { lens: needed(case.tree.len()), label: format!("{records} records"), ..case }
}

fn buffers(rng: &mut Rng, seed: u64) -> Case {
    let mut case = match rng.below(3) {
        0 => damaged(rng),
        _ => program(rng, 0),
    };
    let which = seed as usize % 8;
    if which < 7 {
        case.lens[which] = if rng.chance(80) { case.lens[which].saturating_sub(1) } else { 0 };
    } else {
        case.lens = case.lens.map(|len| len + rng.below(3));
    }
    Case { label: format!("buffer {which}"), ..case }
}

/// The twelve types, then random bytes that look a little like records.
fn random_bytes(rng: &mut Rng) -> Case {
    let mut case = whole(Layout::program(&[]));
    for _ in 0..rng.below(12) {
        let mut bytes = [0u8; RECORD_BYTES];
        bytes[0] = 1 + rng.below(25) as u8;
        bytes[1] = if rng.flip() { 0 } else { rng.below(8) as u8 };
        for word in 1..6 {
            let value = match rng.below(4) {
                0 => 0,
                1 => u32::MAX,
                _ => rng.below(case.tree.len() / RECORD_BYTES + 1) as u32,
            };
            bytes[4 * word..4 * word + 4].copy_from_slice(&value.to_le_bytes());
        }
        case.tree.extend(bytes);
    }
    Case { lens: needed(case.tree.len()), ..case }
}
