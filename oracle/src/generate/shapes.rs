//! Trees at the bounds of lengths and nesting, and the densest trees for each table.

use super::rng::Rng;
use crate::ast::{Ex, Fun, Layout, St, Ty};
use crate::write::*;

/// A tree of exactly `records` records, at least twelve: past the twelve types come a few more, and
/// one function (three records) of Declares (two each, with the list cell).
pub fn of_records(rng: &mut Rng, records: usize) -> Layout {
    let rest = records - 12;
    let mut layout = Layout::default();
    let mut functions = Vec::new();
    let types = if rest < 3 { rest } else { (rest - 3) % 2 + 2 * rng.below(3).min((rest - 3) / 2) };
    layout.extra_types = (0..types).map(|at| array(Ty::Byte, at as u64)).collect();
    if rest >= 3 {
        let body = (0..(rest - 3 - types) / 2).map(|at| declare(&format!("나{at}"), LONG)).collect();
        functions.push(func("가다", &[], None, body));
    }
    layout.add(&functions);
    layout
}

/// An expression whose nesting is `depth`.
fn nested(rng: &mut Rng, depth: usize) -> Ex {
    let mut expr = int(1);
    for _ in 1..depth {
        expr = match rng.below(3) {
            0 => unary(BIT_NOT, expr),
            1 => binary(expr, ADD, int(2)),
            _ => binary(int(3), BIT_XOR, expr),
        };
    }
    expr
}

/// A program whose deepest record, its function, lies about 64 deep.
pub fn deep(rng: &mut Rng) -> Vec<Fun> {
    let depth = 59 + rng.below(8);
    match rng.below(5) {
        0 => {
            // A type inside types.
            let ty = (1..depth).fold(LONG, |ty, _| address(ty));
            vec![func("가다", &[("가", ty)], None, vec![])]
        }
        1 => {
            let body = (2..depth).fold(vec![St::Break], |body, _| vec![St::While(Ex::Bool(true), body)]);
            vec![func("가다", &[], None, body)]
        }
        2 => {
            // A call in a call takes two: the value and the call.
            let inner = (0..depth / 2).fold(int(1), |expr, _| call_of("x", vec![expr]));
            let known = external("x", &[("가", LONG)], Some(LONG), false);
            vec![known, func("가다", &[], None, vec![init("나", inner)])]
        }
        3 => {
            let inner = (2..depth)
                .fold(vec![St::Return(int(1))], |body, _| vec![St::If(Ex::Bool(true), vec![], Some(body))]);
            vec![func("가다", &[], None, inner)]
        }
        _ => vec![func("가다", &[], None, vec![init("나", nested(rng, depth))])],
    }
}

/// What a dense tree has most of, per record.
pub const DENSE: [&str; 6] = ["instructions", "variables", "labels", "functions", "strings", "floats"];

/// A tree of nearly `most` records that is dense for one table.
pub fn dense(rng: &mut Rng, table: usize, most: usize) -> Vec<Fun> {
    if table == 3 {
        let count = (most - 12) / 3;
        return (0..count).map(|at| func(&format!("함{at}"), &[], None, vec![])).collect();
    }
    let (chain, mixed) = (30 + rng.below(31), rng.flip());
    let mut body = vec![declare("짧", SINGLE), declare("참", Ty::Bool)];
    let mut records = 12 + 3 + 4;
    loop {
        let at = body.len();
        let (cost, statement) = dense_statement(table, chain, at, mixed);
        records += cost;
        if records > most {
            return vec![func("가다", &[], None, body)];
        }
        body.push(statement);
    }
}

/// One statement for a dense tree, with the records that it takes.
fn dense_statement(table: usize, chain: usize, at: usize, mixed: bool) -> (usize, St) {
    let truth = || name("참");
    match (table, if mixed { at % 2 } else { 0 }) {
        (0, 0) => (2 * chain + 3, init("참", (0..chain).fold(truth(), |expr, _| binary(expr, OR, truth())))),
        (0, _) => (5, for_loop(&format!("수{at}"), Some(LONG), int(0), int(9), vec![])),
        (1, _) => (chain + 3, init(&format!("수{at}"), (0..chain).fold(int(1), |expr, _| unary(NEG, expr)))),
        (2, 0) => (2 * chain + 3, init("참", (0..chain).fold(truth(), |expr, _| binary(truth(), AND, expr)))),
        (2, _) => (3, St::If(Ex::Bool(true), vec![], Some(vec![]))),
        (4, _) => {
            let text = |at: usize| string(&format!("글{at}"));
            let pair = |i: usize| binary(text(at * 200 + 2 * i), EQ, text(at * 200 + 2 * i + 1));
            (4 * chain + 1, init("참", (1..chain).fold(pair(0), |expr, i| binary(expr, AND, pair(i)))))
        }
        _ => {
            let literal = |i: usize| float((at * 100 + i) as f64);
            let sum = (0..chain).fold(name("짧"), |expr, i| binary(expr, ADD, literal(i)));
            (2 * chain + 3, init("짧", sum))
        }
    }
}
