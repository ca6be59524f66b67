//! The call's time beside that of Krc's `convert`, on the same programs, in one run.

use std::hint::black_box;
use std::time::{Duration, Instant};

use oracle::Case;
use oracle::converter::converter::Converter;
use oracle::parser::postparser::structs::{Program, Type};
use oracle::program::Build;
use oracle::stand_ins::set_key_texts;
use oracle::tree::Tree;
use rudderplum::{ANSWER_BYTES, Buffers, JUDGE_ANSWER_BYTES, RECORD_BYTES, convert_into, judge_into};

use crate::clock::Clock;
use crate::makes::Make;

/// The measures take turns, so that what else runs on the machine meets them alike.
const TURNS: usize = 8;

pub const HEAD: &str = "| records | nesting | trees | call (us) | 99 of 100 (us) | worst (us) | ns a record | judge (us) | clearing (us) | Krc's convert (us) | ratio |";
pub const LINE: &str = "|---|---|---|---|---|---|---|---|---|---|---|";

pub struct Options {
    pub makes: Vec<&'static Make>,
    /// Sizes in records.
    pub sizes: Vec<usize>,
    /// For the makes that take one.
    pub nestings: Vec<usize>,
    /// How often each measure is taken, for one row.
    pub rounds: usize,
    /// How many trees are taken in turn.
    pub trees: usize,
    /// Prints rows alone, each with this word before it, for runs whose tables are put together.
    pub rows: Option<String>,
}

impl Options {
    /// Size and nesting of the rows of a make.
    pub fn rows_of(&self, make: &Make) -> Vec<(usize, Option<usize>)> {
        let of_size = |&size: &usize| {
            make.nestings(size, &self.nestings).into_iter().map(move |nesting| (size, nesting))
        };
        self.sizes.iter().flat_map(of_size).collect()
    }
}

/// A thread that was off its core for longer than this was waiting for it.
const OFF_CORE: Duration = Duration::from_micros(10);

/// What a measure took, in microseconds, each time.
#[derive(Default)]
struct Times(Vec<f64>);

impl Times {
    /// Times one run, and leaves it out if the thread had to wait for its core; what it hands back is dropped outside its time.
    fn take<T>(&mut self, run: impl FnOnce() -> T) {
        let before = Clock::Thread.now();
        let start = Instant::now();
        let result = black_box(run());
        let time = start.elapsed();
        if time <= Clock::Thread.now() - before + OFF_CORE {
            self.0.push(time.as_secs_f64() * 1e6);
        }
        drop(result);
    }

    fn median(&mut self) -> f64 {
        self.0.sort_by(f64::total_cmp);
        self.of_hundred(50)
    }

    /// What so many of a hundred do not exceed, once sorted; no number if every run was left out.
    fn of_hundred(&self, many: usize) -> f64 {
        self.0.get(self.0.len().saturating_sub(1) * many / 100).copied().unwrap_or(f64::NAN)
    }
}

/// The seven buffers of a caller, who lends as much of each as a tree needs; they hold what the last call left.
pub struct Owned([Vec<u8>; 7]);

impl Owned {
    pub fn for_cases(cases: &[Case]) -> Self {
        Self(std::array::from_fn(|k| vec![0; cases.iter().map(|case| case.lens[k]).max().unwrap_or(0)]))
    }

    fn lend(&mut self, lens: [usize; 7]) -> Buffers<'_> {
        let mut lens = lens.into_iter();
        let [instructions, variables, labels, functions, strings, floats, scratch] =
            self.0.each_mut().map(|buffer| &mut buffer[..lens.next().unwrap_or(0)]);
        Buffers { instructions, variables, labels, functions, strings, floats, scratch }
    }

    /// The whole call: judging, converting, clearing. The answer's number.
    pub fn call(&mut self, case: &Case) -> u8 {
        let mut answer = [0; ANSWER_BYTES];
        assert!(convert_into(
            black_box(&case.tree),
            black_box(&case.text),
            false,
            self.lend(case.lens),
            &mut answer
        ));
        answer[0]
    }

    /// The judge alone.
    pub fn judge(&mut self, case: &Case) -> u8 {
        let mut answer = [0; JUDGE_ANSWER_BYTES];
        assert!(judge_into(black_box(&case.tree), black_box(&case.text), self.lend(case.lens), &mut answer));
        answer[0]
    }

    /// The floor: zeros into what is lent.
    fn clear(&mut self, case: &Case) {
        for (buffer, len) in self.0.iter_mut().zip(case.lens) {
            black_box(&mut buffer[..len]).fill(0);
        }
    }
}

/// A program as Krc's parser would leave it, with the key texts of its types.
pub struct Built {
    program: Program,
    keys: Vec<(Type, String)>,
}

impl Built {
    pub fn new(case: &Case) -> Self {
        let tree = Tree::new(&case.tree, &case.text);
        let build = Build::new(&tree);
        Self { program: build.program(), keys: build.key_texts() }
    }

    pub fn make_ready(&self) {
        set_key_texts(self.keys.clone());
    }

    /// Krc's `convert` alone, once made ready.
    pub fn convert(&self) -> impl Sized {
        Converter::new(black_box(&self.program), false).convert()
    }
}

/// The times of the four measures over these trees, taken in turn.
struct Row {
    records: usize,
    call: Times,
    judge: Times,
    clear: Times,
    krc: Times,
}

fn measure(cases: &[Case], rounds: usize) -> Row {
    let mut owned = Owned::for_cases(cases);
    let built: Vec<Built> = cases.iter().map(Built::new).collect();
    let [mut call, mut judge, mut clear, mut krc] = [(); 4].map(|()| Times::default());
    // Once round untimed, so that no measure pays for pages that nobody has touched.
    cases.iter().for_each(|case| assert_eq!(owned.call(case), 0));
    let each = rounds.div_ceil(TURNS).max(cases.len());
    for _ in 0..TURNS {
        (0..each).for_each(|at| call.take(|| owned.call(&cases[at % cases.len()])));
        (0..each).for_each(|at| judge.take(|| owned.judge(&cases[at % cases.len()])));
        (0..each).for_each(|at| clear.take(|| owned.clear(&cases[at % cases.len()])));
        for at in 0..each {
            let program = &built[at % cases.len()];
            // Else the same program stays ready.
            if cases.len() > 1 || at == 0 {
                program.make_ready();
            }
            krc.take(|| program.convert());
        }
    }
    let records = cases.iter().map(|case| case.tree.len() / RECORD_BYTES).sum::<usize>() / cases.len();
    Row { records, call, judge, clear, krc }
}

impl Row {
    fn print(&mut self, before: &str, nesting: Option<usize>, trees: usize) {
        let (call, krc) = (self.call.median(), self.krc.median());
        let nesting = nesting.map_or("-".to_string(), |nesting| nesting.to_string());
        println!(
            "{before}| {} | {nesting} | {trees} | {call:.1} | {:.1} | {:.0} | {:.0} | {:.1} | {:.1} | {krc:.1} | {:.2} |",
            self.records,
            self.call.of_hundred(99),
            self.call.of_hundred(100),
            call * 1e3 / self.records as f64,
            self.judge.median(),
            self.clear.median(),
            call / krc
        );
    }
}

/// Prints a table for each make, with two rows for each size and nesting: one tree again and again, and many in turn.
pub fn time(options: &Options) -> u64 {
    let before = options.rows.as_ref().map_or(String::new(), |word| format!("| {word} "));
    for make in &options.makes {
        if options.rows.is_none() {
            println!("\n{}: {}\n\n{HEAD}\n{LINE}", make.name, make.what);
        }
        for (size, nesting) in options.rows_of(make) {
            let cases = make.cases(size, nesting, options.trees);
            for some in [&cases[..1], &cases[..]] {
                measure(some, options.rounds).print(&before, nesting, some.len());
            }
        }
    }
    0
}

/// Calls with so many trees of one make in turn, again and again, for a profile.
pub fn repeat(make: &Make, size: usize, trees: usize, rounds: usize) -> u64 {
    let cases = make.cases(size, None, trees);
    let mut owned = Owned::for_cases(&cases);
    (0..rounds).for_each(|at| assert_eq!(owned.call(&cases[at % trees]), 0));
    0
}

/// Converts one tree once, for measuring its stack.
pub fn one(tree: &str, text: &str) -> u64 {
    let read = |path: &str| std::fs::read(path).unwrap_or_else(|err| panic!("{path}: {err}"));
    let (tree, text) = (read(tree), read(text));
    match rudderplum::convert(&tree, &text, false) {
        Ok(tables) => println!("0 {:?}", tables.counts()),
        Err(refusal) => println!("{refusal}"),
    }
    0
}
