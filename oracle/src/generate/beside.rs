//! Programs side by side in one tree, each with functions of its own.

use super::programs::Maker;
use super::rng::Rng;
use crate::ast::{Ar, Ex, Fun, Layout, St, mangle};
use crate::tree::CAST_VERB;

/// Programs of up to so many records beside the twelve types, with `wrong` of a thousand parts taken without regard to their place.
pub fn programs(rng: &mut Rng, mut left: usize, wrong: usize) -> Vec<Fun> {
    let mut made = Vec::new();
    for piece in 0..4 * (left + 12) {
        let budget = 8 + rng.below(left.min(250));
        let mut next = Maker::new(rng, wrong, budget).program();
        next.iter_mut().for_each(|func| renamed_function(func, piece));
        let records = Layout::program(&next).records.len() - 12;
        if records <= left && records * 8 > left.min(400) {
            left -= records;
            made.extend(next);
        }
        if left < 12 {
            break;
        }
    }
    made
}

/// A function of one piece: its own name and the verbs that it calls end in the piece's number, but for the cast's.
fn renamed_function(func: &mut Fun, piece: usize) {
    if func.name == b"main" {
        func.name = "본".into();
    }
    func.name.extend(piece.to_string().bytes());
    func.mangled =
        if func.external { func.name.clone() } else { mangle(&func.name, &func.params, func.variadic) };
    func.body.iter_mut().for_each(|body| renamed_block(body, piece));
}

fn renamed_block(block: &mut [St], piece: usize) {
    for statement in block {
        match statement {
            St::Init(_, _, value) | St::Return(value) | St::Call(value) => renamed(value, piece),
            St::If(test, then, otherwise) => {
                renamed(test, piece);
                renamed_block(then, piece);
                otherwise.iter_mut().for_each(|block| renamed_block(block, piece));
            }
            St::While(test, body) => {
                renamed(test, piece);
                renamed_block(body, piece);
            }
            St::For(_, _, from, until, body) => {
                renamed(from, piece);
                renamed(until, piece);
                renamed_block(body, piece);
            }
            St::Declare(..) | St::Break | St::Continue => {}
        }
    }
}

fn renamed(expr: &mut Ex, piece: usize) {
    match expr {
        Ex::Unary(_, operand) => renamed(operand, piece),
        Ex::Binary(_, left, right) => {
            renamed(left, piece);
            renamed(right, piece);
        }
        Ex::Call(verb, args) => {
            if *verb == b"main" {
                *verb = "본".into();
            }
            if *verb != CAST_VERB {
                verb.extend(piece.to_string().bytes());
            }
            for arg in args {
                if let Ar::Value(value) = arg {
                    renamed(value, piece);
                }
            }
        }
        _ => {}
    }
}
