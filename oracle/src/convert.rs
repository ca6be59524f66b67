//! The conversion call: judge, convert with Krc and with the amended copy of it, and answer as document 01 says. Where a request decides a
//! tree, the copy's answer counts; where none does, the two must be the same.

use std::cell::RefCell;
use std::panic::{self, AssertUnwindSafe};
use std::sync::Once;

use crate::converter::convert_error::{ConvertError, ConvertErrorKind};
use crate::judge::{Refusal, judge};
use crate::program::Build;
use crate::stand_ins::set_key_texts;
use crate::tables::{Tables, tables};
use crate::tree::*;
use crate::visits::{self, Log};
use crate::walk::{Stop, Walk};
use crate::yardstick::{AMENDED, Krc, RUST, Reason, Yardstick};

#[derive(Clone, Debug, PartialEq, Eq)]
pub enum Answer {
    Converted(Tables),
    Refused(Refusal),
}

impl Answer {
    /// 0 for a converted tree, else the refusal's number.
    pub fn number(&self) -> u32 {
        match self {
            Answer::Converted(_) => 0,
            Answer::Refused(refusal) => refusal.number,
        }
    }

    /// The line that document 01's program prints.
    pub fn line(&self) -> String {
        match self {
            Answer::Converted(tables) => {
                let counts = tables.counts().map(|count| count.to_string());
                format!("0 {}", counts.join(" "))
            }
            Answer::Refused(r) => format!("{} {} {} {}", r.number, r.place, r.start, r.end),
        }
    }
}

/// The whole call. An answer of Krc's that the records do not explain, or one of the amended copy that no request does, is an internal error
/// and panics, with what was found.
pub fn convert(tree: &[u8], text: &[u8], needs_main: bool, lens: [usize; 7]) -> Answer {
    match try_convert(tree, text, needs_main, lens) {
        Ok(answer) => answer,
        Err(message) => panic!("oracle: internal error: {message}"),
    }
}

/// `convert`, with an internal error handed back.
pub fn try_convert(tree: &[u8], text: &[u8], needs_main: bool, lens: [usize; 7]) -> Result<Answer, String> {
    Ok(held(tree, text, needs_main, lens)?.answer)
}

/// An answer, the yardstick that it is (none where the tree is refused before conversion), and the Rust's own answer where that is another.
pub struct Held {
    pub answer: Answer,
    /// The seventh count: how many expression records are typed at least once; 0 where nothing is converted.
    pub visits: u32,
    pub by: Option<Yardstick>,
    pub otherwise: Option<Answer>,
}

impl Held {
    fn refused(refusal: Refusal) -> Self {
        Self { answer: Answer::Refused(refusal), visits: 0, by: None, otherwise: None }
    }

    /// The eight words of the call's answer: 0 and the seven counts; or number, place, span, and zeros.
    pub fn words(&self) -> [u32; 8] {
        match &self.answer {
            Answer::Converted(tables) => {
                let [a, b, c, d, e, f] = tables.counts();
                [0, a, b, c, d, e, f, self.visits]
            }
            Answer::Refused(r) => [r.number, r.place, r.start, r.end, 0, 0, 0, 0],
        }
    }
}

/// `try_convert`, with the yardstick that the tree is held to.
pub fn held(tree: &[u8], text: &[u8], needs_main: bool, lens: [usize; 7]) -> Result<Held, String> {
    if let Err(refusal) = judge(tree, text, lens) {
        return Ok(Held::refused(refusal));
    }
    let tree = Tree::new(tree, text);
    let build = Build::new(&tree);
    let by = Yardstick::of(&build);
    let ask = |krc| answer_by(krc, &build, needs_main, lens);
    let (rust, (amended, log)) = (ask(&RUST)?, visits::watched(|| ask(&AMENDED)));
    let amended = amended?;
    if rust != amended && !may_differ(by, &rust, &amended) {
        return Err(format!("{by:?}: Krc answers {}, the amended copy {}", rust.line(), amended.line()));
    }
    let visits = visits_of(&amended, &tree, &log)?;
    let otherwise = (rust != amended).then_some(rust);
    Ok(Held { answer: amended, visits, by: Some(by), otherwise })
}

/// The seventh count: how many records the amended copy typed. They must be those that the records tell.
fn visits_of(answer: &Answer, tree: &Tree, log: &Log) -> Result<u32, String> {
    if let Answer::Refused(_) = answer {
        return Ok(0);
    }
    let (typed, told) = (log.keys().copied().collect::<Vec<u32>>(), visits::by_records(tree));
    if typed != told {
        return Err(format!("the records {typed:?} are typed, {told:?} expected"));
    }
    Ok(typed.len() as u32)
}

/// Whether the two answers may be different ones: not without a reason; by type arguments alone, since 'overloads are chosen as before', only
/// where both convert, with the same labels and strings.
fn may_differ(by: Yardstick, rust: &Answer, amended: &Answer) -> bool {
    match (by, rust, amended) {
        (Yardstick::Rust, ..) => false,
        (Yardstick::Amended(Reason::TypeArguments), Answer::Converted(rust), Answer::Converted(amended)) => {
            rust.labels == amended.labels && rust.strings == amended.strings
        }
        (Yardstick::Amended(Reason::TypeArguments), ..) => false,
        (Yardstick::Amended(Reason::LostBits | Reason::Both), ..) => true,
    }
}

/// The answer of the unmodified or of the amended converter to a judged tree, whether or not the tree is held to it.
pub fn answer_by(krc: &Krc, build: &Build, needs_main: bool, lens: [usize; 7]) -> Result<Answer, String> {
    set_key_texts(build.key_texts());
    let program = build.program();
    match quietly(|| (krc.convert)(&program, needs_main)) {
        Ok(Ok(ir)) => within(tables(build, &ir)?, lens),
        Ok(Err(error)) => {
            let (number, place) = error_place(&error);
            Ok(Answer::Refused(refusal_at(build.tree, number, place)))
        }
        Err(panic) => Ok(Answer::Refused(refusal_at(build.tree, 27, stop_place(build.tree, &panic)?))),
    }
}

/// The tables, which must lie within the buffers.
fn within(tables: Tables, lens: [usize; 7]) -> Result<Answer, String> {
    let [instructions, variables, labels, functions, strings, floats, _] = lens;
    let lens = [functions, instructions, variables, labels, strings, floats];
    if tables.in_order().iter().zip(lens).any(|(table, len)| table.len() > len) {
        return Err(format!("a table leaves its buffer: {:?}", tables.counts()));
    }
    Ok(Answer::Converted(tables))
}

fn refusal_at(tree: &Tree, number: u32, place: u32) -> Refusal {
    let span = if place == NONE { (0, 0) } else { (tree.at(place).start, tree.at(place).end) };
    Refusal { number, place, start: span.0, end: span.1 }
}

/// An error's number and the record that its span tells.
pub fn error_place(error: &ConvertError) -> (u32, u32) {
    let number = error_number(&error.kind);
    let place = if number == 10 { NONE } else { (error.span.start >> 32) as u32 };
    (number, place)
}

/// The numbers of the errors, in the order in which Krc declares them.
fn error_number(kind: &ConvertErrorKind) -> u32 {
    use ConvertErrorKind::*;
    match kind {
        SameSignature(_) => 1,
        SameSymbol(_) => 2,
        AlreadyDeclared(_) => 3,
        UnknownVariable(_) => 4,
        UnknownFunction { .. } => 5,
        AssignToConstant(_) => 6,
        ReturnWithoutType(_) => 7,
        NoValue(_) => 8,
        MissingReturn(_) => 9,
        NoMain => 10,
        MainNotInteger => 11,
        WrongReturnType { .. } => 12,
        WrongAssignType { .. } => 13,
        WrongOperands { .. } => 14,
        AmbiguousCall { .. } => 15,
        LiteralOutOfRange(_) => 16,
        InvalidCast { .. } => 17,
        NotBool => 18,
        NotInteger => 19,
        BreakOutOfLoop => 20,
        ContinueOutOfLoop => 21,
        LatinCharInNonLibCFunction => 22,
        ExternNotLatin(_) => 23,
    }
}

/// Where Krc panicked: it reports no error before, so it is the first place, in the order of
/// conversion, where it cannot go on. The panic's own message must fit that place.
fn stop_place(tree: &Tree, panic: &str) -> Result<u32, String> {
    let mut stops = tree.of_kind(FUNCTION).flat_map(|record| Walk::new(tree, record).stops);
    let Some((stop, record)) = stops.next() else {
        return Err(format!("Krc panicked without a reason: {panic}"));
    };
    let (file, message) = match stop {
        Stop::DeclareCustom | Stop::CastStatement => ("statements.rs", "not implemented"),
        Stop::CastOfNothing => ("statements.rs", "removal index"),
        Stop::SizeOf => ("structs.rs", "not implemented"),
    };
    if panic.contains(file) && panic.contains(message) {
        Ok(record)
    } else {
        Err(format!("Krc panicked, {stop:?} at {record} expected: {panic}"))
    }
}

thread_local! {
    /// Set while Krc runs: its panics are caught and kept here, not printed.
    static PANIC: RefCell<Option<String>> = const { RefCell::new(None) };
}

/// Runs `work`; a panic gives its message and place, and prints nothing.
pub fn quietly<T>(work: impl FnOnce() -> T) -> Result<T, String> {
    static HOOK: Once = Once::new();
    HOOK.call_once(|| {
        let before = panic::take_hook();
        panic::set_hook(Box::new(move |info| {
            let caught = PANIC.with(|panic| {
                let mut panic = panic.borrow_mut();
                panic.as_mut().map(|message| *message = info.to_string()).is_some()
            });
            if !caught {
                before(info);
            }
        }));
    });
    PANIC.with(|panic| *panic.borrow_mut() = Some(String::new()));
    let result = panic::catch_unwind(AssertUnwindSafe(work));
    let message = PANIC.with(|panic| panic.borrow_mut().take()).unwrap_or_default();
    result.map_err(|_| message)
}
