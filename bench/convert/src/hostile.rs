//! The call's time on trees that try to stall it, each in a process of its own that ends at a limit. Time is the process's own: what it
//! waits for a core is not counted.

use std::io::Write;
use std::process::Command;
use std::sync::Mutex;
use std::thread;
use std::time::Duration;

use crate::attacks::{Attack, Knobs};
use crate::clock::Clock;
use crate::time::{Built, Owned};

/// Bytes of text, where their number matters.
const TEXTS: [usize; 3] = [4 << 10, 18 << 10, 64 << 10];
/// How often a measure is taken; the best counts.
const TIMES: usize = 3;
pub const HEAD: &str =
    "| attack | text | share, depth | records | call (ms) | judge (ms) | Krc's convert (ms) |";
pub const LINE: &str = "|---|---|---|---|---|---|---|";

pub struct Options {
    pub attacks: Vec<&'static Attack>,
    pub limit: Duration,
    /// Sizes in records.
    pub sizes: Vec<usize>,
    /// Prints rows alone, each with this word before it.
    pub rows: Option<String>,
}

#[derive(Clone, Copy)]
pub enum Measure {
    Call,
    Judge,
    Krc,
}

impl Measure {
    pub fn by_name(name: &str) -> Option<Self> {
        [Measure::Call, Measure::Judge, Measure::Krc].into_iter().find(|measure| measure.name() == name)
    }

    fn name(self) -> &'static str {
        match self {
            Measure::Call => "call",
            Measure::Judge => "judge",
            Measure::Krc => "krc",
        }
    }
}

/// What a process of its own found.
#[derive(Clone, Copy, PartialEq, PartialOrd)]
enum Taken {
    /// Milliseconds.
    Within(f64),
    Over,
}

impl Taken {
    fn text(self, limit: Duration) -> String {
        match self {
            Taken::Within(time) if time < 0.1 => format!("{time:.3}"),
            Taken::Within(time) if time < 10.0 => format!("{time:.2}"),
            Taken::Within(time) => format!("{time:.0}"),
            Taken::Over => format!("> {}", limit.as_millis()),
        }
    }
}

/// When the measure that is being taken began.
static BEGAN: Mutex<Option<Duration>> = Mutex::new(None);

fn began() -> Option<Duration> {
    *BEGAN.lock().expect("nobody panics with the lock")
}

fn begin() -> Duration {
    let now = Clock::Process.now();
    *BEGAN.lock().expect("nobody panics with the lock") = Some(now);
    now
}

/// Ends the process once a measure takes longer than the limit.
fn watch(limit: Duration) {
    thread::spawn(move || {
        while began().is_none_or(|start| Clock::Process.now() - start <= limit) {
            thread::sleep(Duration::from_millis(20));
        }
        std::process::exit(0)
    });
}

/// Takes one measure of one tree, and prints milliseconds each time.
pub fn alone(measure: Measure, attack: &Attack, knobs: Knobs, limit: Duration) -> u64 {
    let case = attack.case(knobs);
    let mut owned = Owned::for_cases(std::slice::from_ref(&case));
    let built = matches!(measure, Measure::Krc).then(|| Built::new(&case));
    built.iter().for_each(Built::make_ready);
    watch(limit);
    for _ in 0..TIMES {
        let start = begin();
        let number = match (measure, &built) {
            (Measure::Krc, Some(program)) => {
                std::hint::black_box(program.convert());
                0
            }
            (Measure::Judge, _) => owned.judge(&case),
            _ => owned.call(&case),
        };
        let time = Clock::Process.now() - start;
        if number != 0 {
            eprintln!("{} {knobs:?}: refused with {number}", attack.name);
            return 1;
        }
        println!("{}", time.as_secs_f64() * 1e3);
        std::io::stdout().flush().expect("standard output is open");
    }
    0
}

/// The best of a few, each within the limit, from a process of its own.
fn take(measure: Measure, attack: &Attack, knobs: Knobs, limit: Duration) -> Taken {
    let own = std::env::current_exe().expect("this program has a path");
    let numbers = [knobs.records, knobs.text, knobs.share, knobs.depth, limit.as_secs() as usize]
        .map(|number| number.to_string());
    let run = Command::new(own).args(["alone", measure.name(), attack.name]).args(numbers).output();
    let run = run.expect("this program starts");
    // What it says of a tree that was refused.
    std::io::stderr().write_all(&run.stderr).expect("standard error is open");
    let times =
        String::from_utf8_lossy(&run.stdout).lines().filter_map(|line| line.parse().ok()).reduce(f64::min);
    times.map_or(Taken::Over, Taken::Within)
}

/// The knobs with which the call takes longest; the first that goes over the limit is enough.
fn worst(attack: &Attack, records: usize, text: usize, limit: Duration) -> (Taken, Knobs) {
    let (share, depth) = (attack.shares[0], attack.depths[0]);
    let mut found = (Taken::Within(0.0), Knobs { records, text, share, depth });
    for &share in attack.shares {
        for &depth in attack.depths {
            let knobs = Knobs { records, text, share, depth: attack.depth(depth, records) };
            let taken = take(Measure::Call, attack, knobs, limit);
            if taken > found.0 {
                found = (taken, knobs);
            }
            if taken == Taken::Over {
                return found;
            }
        }
    }
    found
}

/// Prints a table: of each attack the worst tree found, and what the call, the judge alone and Krc's `convert` take with it.
pub fn hostile(options: &Options) -> u64 {
    let before = options.rows.as_ref().map_or(String::new(), |word| format!("| {word} "));
    if options.rows.is_none() {
        println!("{HEAD}\n{LINE}");
    }
    for attack in &options.attacks {
        let texts = if attack.texts { &TEXTS[..] } else { &TEXTS[..1] };
        for (&size, &text) in options.sizes.iter().flat_map(|size| texts.iter().map(move |text| (size, text)))
        {
            let (call, knobs) = worst(attack, size, text, options.limit);
            let others =
                [Measure::Judge, Measure::Krc].map(|measure| take(measure, attack, knobs, options.limit));
            let [judge, krc] = others.map(|taken| taken.text(options.limit));
            let case = attack.case(knobs);
            let size = if attack.texts { format!("{} KB", text >> 10) } else { "-".to_string() };
            let (records, call) = (case.tree.len() / 32, call.text(options.limit));
            println!(
                "{before}| {} | {size} | {}/8, {} | {records} | {call} | {judge} | {krc} |",
                attack.name, knobs.share, knobs.depth
            );
        }
    }
    if options.rows.is_none() {
        println!();
        options.attacks.iter().for_each(|attack| println!("- {}: {}", attack.name, attack.what));
    }
    0
}
