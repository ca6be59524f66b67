//! Slips in what is left behind: buffers not cleared, or cleared where nothing may be written, and spans.

use super::{Stored, Ways};
use crate::judge::needed;
use crate::tree::NONE;

type Seen = fn(&Stored, usize) -> bool;

/// Whether all buffers are left as found.
fn untouched(case: &Stored) -> bool {
    matches!(case.answer[..2], [24 | 26, NONE])
}

/// Bytes of the tables in a buffer.
fn held(case: &Stored, buffer: usize) -> usize {
    case.tables.get(buffer).copied().unwrap_or(0)
}

fn longer(case: &Stored, buffer: usize) -> bool {
    case.lens[buffer] > needed(case.tree_len)[buffer]
}

/// What can be left behind wrongly, and whether a case shows it in a buffer.
const LEFT: Ways<Seen, 4> = [
    ("not cleared", |case, buffer| !untouched(case) && case.lens[buffer] > held(case, buffer)),
    ("cleared as far as is needed", |case, buffer| !untouched(case) && longer(case, buffer)),
    ("cleared though untouched", |case, buffer| untouched(case) && case.lens[buffer] > 0),
    ("cleared though untouched, behind what is needed", |case, buffer| {
        untouched(case) && longer(case, buffer)
    }),
];

fn span(case: &Stored) -> (u32, u32) {
    let record = case.tree.records.get(case.answer[1] as usize);
    record.map_or((0, 0), |record| (record.start, record.end))
}

/// What a refusal can say wrongly of its span.
const SPANS: Ways<fn(&Stored) -> bool, 3> = [
    ("without its span", |case| (case.answer[2], case.answer[3]) != (0, 0)),
    ("its span turned round", |case| case.answer[2] != case.answer[3]),
    ("with its record's span", |case| span(case) != (case.answer[2], case.answer[3])),
];

/// How many such slips there are, and the names of those that no case notices. A number without a place tells lengths and buffers
/// from records; a number that gives no span can only be given one.
pub fn unnoticed(cases: &[Stored]) -> (usize, Vec<String>) {
    let (mut all, mut missed) = (0, Vec::new());
    let mut look = |name: String, seen: &dyn Fn(&Stored) -> bool| {
        all += 1;
        if !cases.iter().any(|case| case.fill != 0 && seen(case)) {
            missed.push(name);
        }
    };
    for number in 0..=27 {
        for (name, seen) in &LEFT {
            let clears = !name.contains("untouched");
            if clears && number == 26 || !clears && !matches!(number, 24 | 26) {
                continue;
            }
            for buffer in 0..7 {
                look(format!("{number}: buffer {buffer} {name}"), &|case| {
                    case.answer[0] == number && seen(case, buffer)
                });
            }
        }
        for (name, seen) in &SPANS {
            let placed = !matches!(number, 0 | 10 | 24..=26);
            if placed != name.starts_with("with its") && !matches!(number, 0 | 10 | 26) {
                look(format!("{number}: {name}"), &|case| case.answer[0] == number && seen(case));
            }
        }
    }
    (all, missed)
}
