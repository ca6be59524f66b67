//! Trees with one thing wrong: one field of one record of a good tree, in every place.

use super::rng::Rng;
use crate::ast::{Ar, Ex, Fun, Layout, St, Ty};
use crate::tree::*;
use crate::write::*;

/// A small good program with a record of every kind.
pub fn every_kind() -> Vec<Fun> {
    let print = external("printf", &[("글", address(Ty::Char))], Some(SHORT), true);
    let print_call = call_of("printf", vec![string("%f"), float(0.5), Ex::Null]);
    let sum = binary(Ex::SizeOf(array(custom("꼴"), 2)), ADD, unary(NEG, int(-1)));
    let inner =
        vec![St::If(Ex::Bool(true), vec![St::Break], Some(vec![St::Continue])), declare("나", address(LONG))];
    let body = vec![
        St::Call(print_call),
        St::Call(sum),
        constant("고", call("바꾸다", vec![value(int(3)), Ar::Type(DOUBLE)])),
        St::While(name("참"), inner),
        for_loop("수", Some(SHORT), int(0), int(9), vec![]),
        for_loop("수", Some(SHORT), int(0), int(9), vec![St::If(name("참"), vec![], None)]),
        St::Return(name("참")),
    ];
    vec![print, func("하다", &[("참", Ty::Bool), ("값", USHORT)], Some(Ty::Bool), body)]
}

/// A smaller good program, to stand in a list of cases.
pub fn small_good(which: usize) -> Vec<Fun> {
    let truth = || name("참");
    let bodies: [Vec<St>; 8] = [
        vec![St::Return(binary(truth(), AND, unary(NOT, truth())))],
        vec![St::If(truth(), vec![St::Return(truth())], Some(vec![St::Return(Ex::Bool(false))]))],
        vec![St::While(truth(), vec![St::Break, St::Continue]), St::Return(truth())],
        vec![for_loop("수", Some(SHORT), int(0), int(3), vec![]), St::Return(truth())],
        vec![St::Call(call("바꾸다", vec![value(int(3)), Ar::Type(DOUBLE)])), St::Return(truth())],
        vec![declare("가", array(custom("꼴"), 2)), init("나", string("글")), St::Return(truth())],
        vec![St::Call(Ex::SizeOf(address(LONG))), constant("다", float(0.5)), St::Return(truth())],
        vec![St::Call(Ex::Null), for_loop("참", None, int(0), int(1), vec![St::Break])],
    ];
    vec![func("하다", &[("참", Ty::Bool)], Some(Ty::Bool), bodies[which % bodies.len()].clone())]
}

pub const FIELDS: usize = 9;
pub const VARIANTS: usize = 12;

/// How many ways `damage` knows for a tree of these records.
pub fn ways(records: usize) -> usize {
    records * FIELDS * VARIANTS
}

/// Damages one field of one record: `way` says which and how.
pub fn damage(layout: &mut Layout, way: usize) {
    let records = layout.records.len();
    let (at, field, variant) = (way / (FIELDS * VARIANTS) % records, way / VARIANTS % FIELDS, way % VARIANTS);
    let texts = layout.text.len() as u32;
    let record = &mut layout.records[at];
    let (n, own) = (records as u32, at as u32);
    match field {
        0 => record.kind = [0, 26, 255, 1, 2, 6, 9, 12, 15, 24, 25, record.kind ^ 1][variant],
        1 => {
            let d = record.detail;
            record.detail =
                [d ^ 1, d ^ 2, d ^ 4, d ^ 8, d ^ 16, d ^ 32, d ^ 64, d ^ 128, 0, 255, d + 1, 18][variant]
        }
        2 => record.pad[variant % 2] = [1, 128, 255][variant % 3],
        3..=7 => {
            let old = record.words[field - 3];
            let near = [old.wrapping_add(1), old.wrapping_sub(1)];
            let refs =
                [0, NONE, own, own.wrapping_add(1), own.saturating_sub(1), n, n - 1, 12, texts, texts + 1];
            record.words[field - 3] = if variant < 2 { near[variant] } else { refs[variant - 2] };
        }
        _ => match variant {
            // A record twice, two records exchanged, one left out, the text cut.
            0 => layout.records.push(layout.records[at]),
            1 => layout.records.insert(at, layout.records[at]),
            2 => _ = layout.records.remove(at),
            3 => layout.records.swap(at, (at + 1) % records),
            4 => layout.text.truncate(layout.text.len() - 1),
            5 => layout.text.clear(),
            6 => layout.records.push(Record::new(TYPE, 3, [0; 5])),
            7 => layout.records.push(Record::new(BREAK, 0, [0; 5])),
            8 => layout.records.push(Record::new(UNARY, 0, [own, 0, 0, 0, 0])),
            9 => layout.records.push(Record::new(LIST, 0, [own, NONE, 0, 0, 0])),
            10 => (record.start, record.end) = (NONE, 0),
            _ => layout.records.insert(12, Record::new(TYPE, 7, [0, 3, 0, texts, 0])),
        },
    }
}

/// Some fields changed at random, a bit or a word.
pub fn random(rng: &mut Rng, layout: &mut Layout) {
    for _ in 0..1 + rng.below(2) {
        let way = rng.below(ways(layout.records.len()));
        if rng.flip() {
            damage(layout, way);
            continue;
        }
        let at = rng.below(layout.records.len());
        let mut bytes = layout.records[at].bytes();
        bytes[rng.below(24)] ^= 1 << rng.below(8);
        layout.records[at] = Record::read(&bytes);
    }
}
