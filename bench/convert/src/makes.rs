//! Programs to measure with: several makes, each at any size, all of which convert.

use oracle::ast::{Ex, Fun, Layout, St, Ty};
use oracle::generate::beside;
use oracle::generate::rng::Rng;
use oracle::generate::whole;
use oracle::judge::depths;
use oracle::tree::Tree;
use oracle::write::*;
use oracle::{Answer, Case, convert};
use rudderplum::RECORD_BYTES;

use Program::{Any, Nested};

pub struct Make {
    pub name: &'static str,
    pub what: &'static str,
    program: Program,
}

/// How a program of so many records is made.
enum Program {
    /// Nested as it comes.
    Any(fn(&mut Rng, usize) -> Vec<Fun>),
    /// Of groups of statements, the first of which makes the function around them just so deep, an even number.
    Nested(fn(&mut Rng, usize) -> Vec<St>),
}

/// The shallowest and the deepest nesting of a make that takes it, and those taken unless said otherwise.
const SHALLOWEST: usize = 8;
const DEEPEST: usize = 64;
pub const NESTINGS: [usize; 5] = [SHALLOWEST, 16, 32, 48, DEEPEST];

/// Whether a make can take this nesting.
pub fn is_nesting(nesting: usize) -> bool {
    (SHALLOWEST..=DEEPEST).contains(&nesting) && nesting.is_multiple_of(2)
}

pub const MAKES: [Make; 8] = [
    Make { name: "mixed", what: "the generator's programs, with every construct", program: Any(mixed) },
    Make { name: "bodies", what: "one long body with many open names", program: Any(bodies) },
    Make { name: "functions", what: "many short functions that call each other", program: Any(functions) },
    Make { name: "conditions", what: "Ifs, Whiles, Ands and Ors, nested near 60", program: Any(conditions) },
    Make {
        name: "literals",
        what: "integers, floats and strings, half of them distinct",
        program: Any(literals),
    },
    Make { name: "names", what: "long bodies, with Hangul names of 60 to 200 bytes", program: Any(names) },
    Make {
        name: "deep-conditions",
        what: "Ifs whose conditions are Ands and Ors in each other, nested as said, four of them an If",
        program: Nested(deep_condition),
    },
    Make {
        name: "deep-calls",
        what: "statements of calls in calls, nested as said",
        program: Nested(deep_calls),
    },
];

pub fn by_name(name: &str) -> Option<&'static Make> {
    MAKES.iter().find(|make| make.name == name)
}

impl Make {
    /// The nestings at which programs of a size are made: of those asked for the ones that it has room for, or just one that names none where the
    /// make takes none.
    pub fn nestings(&self, size: usize, asked: &[usize]) -> Vec<Option<usize>> {
        match self.program {
            Any(_) => vec![None],
            Nested(_) => {
                let room = |nesting: &&usize| 5 * **nesting / 2 + 27 <= size;
                asked.iter().filter(room).map(|nesting| Some(*nesting)).collect()
            }
        }
    }

    fn program(&self, rng: &mut Rng, size: usize, nesting: Option<usize>) -> Vec<Fun> {
        match (&self.program, nesting) {
            (Any(program), _) => program(rng, size),
            (Nested(group), nesting) => nested(rng, size, nesting.unwrap_or(DEEPEST), *group),
        }
    }

    /// So many distinct programs that convert, within a twentieth of the size in records.
    pub fn cases(&self, size: usize, nesting: Option<usize>, count: usize) -> Vec<Case> {
        let mut found: Vec<Case> = Vec::new();
        for seed in 0.. {
            let case = whole(Layout::program(&self.program(&mut Rng::new(seed), size, nesting)));
            let records = case.tree.len() / RECORD_BYTES;
            let converts =
                || matches!(convert(&case.tree, &case.text, false, case.lens), Answer::Converted(_));
            if records.abs_diff(size) * 20 <= size && found.iter().all(|c| c.tree != case.tree) && converts()
            {
                found.push(case);
            }
            if found.len() == count {
                break;
            }
        }
        let deepest = |case: &Case| depths(&Tree::new(&case.tree, &case.text)).into_iter().max();
        if let Some(nesting) = nesting {
            found.iter().for_each(|case| assert_eq!(deepest(case), Some(nesting as u32)));
        }
        found
    }
}

/// Programs of the generator side by side, each with names of functions of its own.
fn mixed(rng: &mut Rng, size: usize) -> Vec<Fun> {
    let made = beside::programs(rng, beside_types(size), 0);
    fill_up(rng, made, size)
}

/// Statements for one body, as long as records are left.
struct Body<'r> {
    rng: &'r mut Rng,
    /// Lays statements out only to count their records.
    counted: Layout,
    left: usize,
    block: Vec<St>,
    /// The variables of type long Int.
    known: Vec<Vec<u8>>,
    /// A new name, given how many there are.
    named: fn(&mut Rng, usize) -> Vec<u8>,
}

/// The records of a function but its body: itself, its two names, and two for each parameter.
fn around(params: usize) -> usize {
    3 + 2 * params
}

impl<'r> Body<'r> {
    fn new(rng: &'r mut Rng, left: usize, named: fn(&mut Rng, usize) -> Vec<u8>) -> Self {
        let counted = Layout::program(&[]);
        Self { rng, counted, left, block: Vec::new(), known: Vec::new(), named }
    }

    /// Adds a statement, if its records and its list cell are left.
    fn push(&mut self, statement: St) -> bool {
        let before = self.counted.records.len();
        self.counted.statement(&statement);
        let cost = self.counted.records.len() - before + 1;
        let fits = cost <= self.left;
        if fits {
            self.left -= cost;
            self.block.push(statement);
        }
        fits
    }

    fn fresh(&mut self) -> Vec<u8> {
        let at = self.known.len();
        let name = (self.named)(self.rng, at);
        self.known.push(name.clone());
        name
    }

    fn variable(&mut self) -> Vec<u8> {
        if self.known.is_empty() { self.fresh() } else { self.rng.pick(&self.known).clone() }
    }

    fn operand(&mut self) -> Ex {
        if self.known.is_empty() || self.rng.chance(30) {
            int(self.rng.below(1000) as i64)
        } else {
            Ex::Name(self.variable())
        }
    }

    /// A small expression of type long Int.
    fn value(&mut self, verb: &[u8]) -> Ex {
        let (left, right) = (self.operand(), self.operand());
        match self.rng.below(6) {
            0 => left,
            1 => Ex::Call(verb.to_vec(), vec![value(left), value(right)]),
            2 => {
                let outer = self.operand();
                binary(binary(left, ADD, right), MUL, outer)
            }
            _ => binary(left, [ADD, SUB, MUL, BIT_AND][self.rng.below(4)], right),
        }
    }

    fn assign(&mut self, verb: &[u8]) -> St {
        let target = self.variable();
        St::Init(false, target, self.value(verb))
    }

    fn comparison(&mut self) -> Ex {
        binary(self.operand(), LT + self.rng.below(4) as u8, self.operand())
    }

    /// A statement as bodies have them; only outermost ones open names.
    fn statement(&mut self, verb: &[u8]) -> St {
        match self.rng.below(if self.known.is_empty() { 1 } else { 20 }) {
            0..=3 => {
                let first = self.value(verb);
                St::Init(false, self.fresh(), first)
            }
            4 | 5 => St::Declare(self.fresh(), LONG),
            6..=11 => self.assign(verb),
            12..=14 => {
                let (left, right) = (self.operand(), self.operand());
                St::Call(Ex::Call(verb.to_vec(), vec![value(left), value(right)]))
            }
            15 | 16 => {
                let (test, then) = (self.comparison(), vec![self.assign(verb)]);
                St::If(test, then, Some(vec![self.assign(verb)]))
            }
            17 | 18 => St::While(self.comparison(), vec![self.assign(verb), St::Break]),
            _ => {
                let (name, until) = ((self.named)(self.rng, 5_000 + self.left), self.operand());
                St::For(name, Some(LONG), int(0), until, vec![self.assign(verb)])
            }
        }
    }

    /// The block, with Declares for the records that are left over.
    fn filled(mut self) -> Vec<St> {
        for at in 0..self.left / 2 {
            let name = (self.named)(self.rng, 20_000 + at);
            self.push(St::Declare(name, LONG));
        }
        self.block
    }

    /// Statements until one does not fit any more.
    fn long(mut self, verb: &[u8]) -> Vec<St> {
        loop {
            let statement = self.statement(verb);
            if !self.push(statement) {
                return self.filled();
            }
        }
    }
}

/// The records left for functions once the twelve types stand.
fn beside_types(size: usize) -> usize {
    size.saturating_sub(12)
}

fn text_of(name: &[u8]) -> &str {
    std::str::from_utf8(name).expect("names are UTF-8")
}

/// One function with a long body, beside one that it calls.
fn long_body(rng: &mut Rng, size: usize, named: fn(&mut Rng, usize) -> Vec<u8>) -> Vec<Fun> {
    let (verb, own) = (named(rng, 40_000), named(rng, 40_001));
    let known = declared(text_of(&verb), &[("가", LONG), ("나", LONG)], Some(LONG), false);
    let left = beside_types(size).saturating_sub(2 * around(0) + 4);
    let body = Body::new(rng, left, named).long(&verb);
    vec![known, func(text_of(&own), &[], None, body)]
}

fn short_name(_: &mut Rng, at: usize) -> Vec<u8> {
    format!("변{at}").into_bytes()
}

fn bodies(rng: &mut Rng, size: usize) -> Vec<Fun> {
    long_body(rng, size, short_name)
}

/// A Hangul name: one of eight stems, which many names share, and an end of its own.
fn long_name(rng: &mut Rng, at: usize) -> Vec<u8> {
    let syllable = |k: usize| char::from_u32(0xAC00 + (k % 11_172) as u32).expect("a syllable");
    let stem = rng.below(8);
    let length = 17 + 5 * stem;
    let mut name: String = (0..length).map(|k| syllable(stem * 977 + k * 131)).collect();
    // There are nineteen times 588 syllables.
    let digits = [at / 1000, at / 100 % 10, at / 10 % 10, at % 10];
    name.extend(digits.map(|digit| syllable(digit * 588 + digit / 19)));
    name.into_bytes()
}

fn names(rng: &mut Rng, size: usize) -> Vec<Fun> {
    long_body(rng, size, long_name)
}

/// A short function that calls one of the others.
fn short_function(rng: &mut Rng, at: usize, count: usize) -> Fun {
    let other = format!("함{}", rng.below(count));
    let first = binary(name("가"), [ADD, SUB, MUL][rng.below(3)], name("나"));
    let given = call_of(&other, vec![name("다"), int(rng.below(100) as i64)]);
    let mut body = vec![init("다", first), St::Return(given)];
    if rng.flip() {
        let test = binary(name("가"), LT, int(rng.below(100) as i64));
        body.insert(1, St::If(test, vec![St::Return(name("나"))], None));
    }
    func(&format!("함{at}"), &[("가", LONG), ("나", LONG)], Some(LONG), body)
}

fn functions(rng: &mut Rng, size: usize) -> Vec<Fun> {
    let count = (size / 26).max(1);
    let mut made: Vec<Fun> = Vec::new();
    for at in 0..count {
        made.push(short_function(rng, at, count));
    }
    fill_up(rng, made, size)
}

/// Declares at the start of the last function for the records that are left over.
fn fill_up(rng: &mut Rng, mut made: Vec<Fun>, size: usize) -> Vec<Fun> {
    let records = Layout::program(&made).records.len();
    let left = Body::new(rng, size.saturating_sub(records), short_name).filled();
    if let Some(body) = made.last_mut().and_then(|func| func.body.as_mut()) {
        body.splice(0..0, left);
    }
    made
}

/// Levels in each other, as many as the records allow, 58 at most.
fn nest(rng: &mut Rng, left: usize) -> Vec<St> {
    let compared = |rng: &mut Rng| binary(name("가"), LT + rng.below(4) as u8, int(rng.below(100) as i64));
    let assigned = |rng: &mut Rng| St::Init(false, "가".into(), int(rng.below(100) as i64));
    let turns = rng.below(3);
    if turns == 0 {
        let levels = (left / 4).clamp(1, 58);
        let truth = |rng: &mut Rng| if rng.flip() { name("참") } else { compared(rng) };
        let test = (0..levels).fold(name("참"), |test, _| {
            let op = [AND, OR][rng.below(2)];
            if rng.flip() { binary(truth(rng), op, test) } else { binary(test, op, truth(rng)) }
        });
        return vec![St::If(test, vec![], None)];
    }
    let levels = (left / 6).clamp(1, 58);
    (0..levels).fold(vec![assigned(rng)], |inner, _| {
        let test = if rng.flip() { name("참") } else { compared(rng) };
        if turns == 1 {
            vec![St::While(test, inner)]
        } else {
            vec![St::If(test, inner, rng.chance(30).then(|| vec![assigned(rng)]))]
        }
    })
}

fn conditions(rng: &mut Rng, size: usize) -> Vec<Fun> {
    let params = [("가", LONG), ("참", Ty::Bool)];
    let (mut made, mut left) = (Vec::new(), beside_types(size));
    while made.is_empty() || left > 24 + around(params.len()) {
        let body = nest(rng, (left - around(params.len())).min(400));
        let next = func(&format!("함{}", made.len()), &params, None, body);
        let records = Layout::program(std::slice::from_ref(&next)).records.len() - 12;
        if records > left {
            continue;
        }
        left -= records;
        made.push(next);
    }
    fill_up(rng, made, size)
}

/// Functions of such groups, as many as there is room for, none with much more than 230 records: so what a function costs is much the same at
/// each nesting. What is left over goes to a few that are less deep.
fn nested(rng: &mut Rng, size: usize, nesting: usize, group: fn(&mut Rng, usize) -> Vec<St>) -> Vec<Fun> {
    let params = [("가", LONG), ("참", Ty::Bool)];
    let one = declared("하나", &[("가", LONG)], Some(LONG), false);
    let two = declared("둘", &[("가", LONG), ("나", LONG)], Some(LONG), false);
    let (mut made, mut deep) = (vec![one, two], nesting);
    while deep >= SHALLOWEST {
        let left = size.saturating_sub(Layout::program(&made).records.len() + around(params.len()));
        let mut body = Body::new(rng, left.min(230), short_name);
        let mut next = group(body.rng, deep);
        while next.into_iter().all(|statement| body.push(statement)) {
            next = group(body.rng, deep);
        }
        if body.block.is_empty() {
            deep -= 2;
        } else {
            made.push(func(&format!("함{}", made.len()), &params, None, body.block));
        }
    }
    fill_up(rng, made, size)
}

/// An If whose condition is an And or Or of a comparison or name and of such a condition, on either side; then Ifs with a comparison alone, so many that
/// there are four Ands and Ors and two comparisons for each If at every nesting: only how deep they stand is another.
fn deep_condition(rng: &mut Rng, nesting: usize) -> Vec<St> {
    let compared = |rng: &mut Rng| binary(name("가"), LT + rng.below(4) as u8, int(rng.below(100) as i64));
    // The function and the If are one deeper each, the innermost comparison is 2 deep.
    let levels = nesting - 4;
    let test = (0..levels).fold(compared(rng), |test, level| {
        let (op, leaf) = ([AND, OR][rng.below(2)], if level % 4 == 3 { compared(rng) } else { name("참") });
        if rng.flip() { binary(leaf, op, test) } else { binary(test, op, leaf) }
    });
    let alone = (1..levels / 4).map(|_| compared(rng));
    std::iter::once(test).chain(alone.collect::<Vec<_>>()).map(|test| St::If(test, vec![], None)).collect()
}

/// A call of a call, and so on, every second with one argument and every second with two; as a statement or as a value that is kept.
fn deep_calls(rng: &mut Rng, nesting: usize) -> Vec<St> {
    // The function and the statement are one deeper each, a call and its value too, the innermost sum is 2 deep.
    let sum = binary(name("가"), ADD, int(rng.below(100) as i64));
    let calls = (0..(nesting - 4) / 2).fold(sum, |inner, level| match (level % 2, rng.flip()) {
        (0, _) => call_of("하나", vec![inner]),
        (_, true) => call_of("둘", vec![inner, name("가")]),
        (_, false) => call_of("둘", vec![name("가"), inner]),
    });
    vec![if rng.flip() { St::Call(calls) } else { St::Init(false, "가".into(), calls) }]
}

/// A literal; every second one is new.
fn literal(rng: &mut Rng, kind: usize, at: usize) -> Ex {
    let which = if rng.flip() { at } else { rng.below(at + 1) };
    match kind {
        0 => int(which as i64 * 7919),
        1 => float(which as f64 * 0.37 + 0.5),
        _ => string(&format!("글 {which}: 값은 %ld\n")),
    }
}

fn literals(rng: &mut Rng, size: usize) -> Vec<Fun> {
    let print = external("printf", &[("꼴", address(Ty::Char))], Some(SHORT), true);
    let mut body = Body::new(rng, beside_types(size).saturating_sub(2 * around(0) + 2), short_name);
    let starts = [("수", int(0)), ("실", float(0.25))];
    starts.into_iter().for_each(|(text, first)| _ = body.push(init(text, first)));
    for at in 0.. {
        let statement = match body.rng.below(4) {
            0 => St::Init(false, body.fresh(), literal(body.rng, at % 3, at)),
            1 => init(
                "수",
                binary(literal(body.rng, 0, at), ADD, binary(name("수"), MUL, literal(body.rng, 0, at))),
            ),
            2 => init(
                "실",
                binary(literal(body.rng, 1, at), ADD, binary(name("실"), MUL, literal(body.rng, 1, at))),
            ),
            _ => {
                let given = [2, 0, 1].map(|kind| value(literal(body.rng, kind, at)));
                St::Call(call("printf", given.to_vec()))
            }
        };
        if !body.push(statement) {
            break;
        }
    }
    vec![print, func("적다", &[], None, body.filled())]
}
