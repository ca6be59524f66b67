//! Which expression records Krc types, and how often: the amended copy notes each call of `get_type` here. The seventh count is how many
//! records are in that log.

use std::cell::RefCell;
use std::collections::BTreeMap;

use crate::lexer::span::Span;
use crate::tree::{CALL, CALL_STATEMENT, FUNCTION, Tree};

/// How often each record was typed; one that never was is not in it.
pub type Log = BTreeMap<u32, u64>;

thread_local! {
    /// Set while a conversion is watched.
    static LOG: RefCell<Option<Log>> = const { RefCell::new(None) };
}

/// Notes that the type of an expression is worked out; its span tells its record. Only the amended copy calls this, and it changes no answer.
pub fn typed(span: Span) {
    LOG.with(|log| {
        if let Some(log) = log.borrow_mut().as_mut() {
            *log.entry((span.start >> 32) as u32).or_default() += 1;
        }
    });
}

/// Runs `work`, and gives back what was typed meanwhile.
pub fn watched<T>(work: impl FnOnce() -> T) -> (T, Log) {
    LOG.with(|log| *log.borrow_mut() = Some(Log::new()));
    let result = work();
    (result, LOG.with(|log| log.borrow_mut().take()).unwrap_or_default())
}

/// The records that Krc types at least once, told from the records of a tree that converts: all expressions but the names of functions, which
/// are no expressions, and the calls of call statements, which are resolved and never typed.
pub fn by_records(tree: &Tree) -> Vec<u32> {
    let mut expressions: Vec<bool> = tree.records.iter().map(|record| record.is_expression()).collect();
    for record in &tree.records {
        let untyped: &[u32] = match record.kind {
            FUNCTION => &record.words[..2],
            CALL_STATEMENT if tree.at(record.a()).kind == CALL => &record.words[..1],
            _ => &[],
        };
        untyped.iter().for_each(|at| expressions[*at as usize] = false);
    }
    (0..).zip(expressions).filter(|(_, typed)| *typed).map(|(at, _)| at).collect()
}
