//! Slips in what types come first, and which are equal.

use std::rc::Rc;

use super::reading::*;
use super::{Slips, Ways, letter};
use crate::tree::*;

/// Details below 64 that no type has, each taken for the type of its low bits.
pub fn unknown_types(slips: &mut Slips) {
    for detail in 0..64 {
        let low = if (1..=9).contains(&(detail & 15)) { detail & 15 } else { 3 };
        if Rules::new().forms[TYPES + detail].is_none() {
            slips.add(format!("type {detail} known"), move |rules| {
                rules.forms[TYPES + detail] = rules.forms[TYPES + low].clone();
            });
        }
    }
}

/// An address stands behind what it refers to, so it changes places with few.
pub fn first_types(slips: &mut Slips) {
    slips.add("first types by detail and word A".to_string(), |rules| rules.first_kinds = false);
    for at in 0..12usize {
        slips.add(format!("first type {at} any type"), move |rules| rules.first[at].clear());
        slips.add(format!("first type {at} no type"), move |rules| rules.first_types[at] = false);
        let (detail, inner) = Rules::new().first[at][0];
        for to in (0..at as u32).filter(|to| detail == 6 && *to != inner) {
            slips.add(format!("first type {at} an address of {to}"), move |rules| {
                rules.first[at].push((6, to))
            });
        }
        for other in (0..at).filter(|other| detail != 6 || *other as u32 > inner) {
            slips.add(format!("first types {at} and {other} change places"), move |rules| {
                let both: Vec<(u8, u32)> =
                    [at, other].iter().flat_map(|at| rules.first[*at].clone()).collect();
                (rules.first[at], rules.first[other]) = (both.clone(), both);
            });
        }
    }
}

pub fn equal_types(slips: &mut Slips) {
    slips.add("types behind other kinds".to_string(), |rules| rules.late_types = true);
    slips.add("the earlier of two equal types".to_string(), |rules| rules.later = false);
    let compared: Ways<fn(u32, u32) -> bool, 4> = [
        ("none", |_, _| false),
        ("the one before", |before, at| before + 1 == at),
        ("the first twelve", |before, _| before < 12),
        ("those behind the first twelve", |before, _| before >= 12),
    ];
    for (name, compared) in compared {
        slips.add(format!("types compared with {name}"), move |rules| rules.compared = compared);
    }
    equality(slips);
    names(slips);
}

/// Which types are taken for equal.
fn equality(slips: &mut Slips) {
    let same = |slips: &mut Slips, name: &str, same: Same| {
        slips.add(format!("equal types: {name}"), move |rules| rules.same = same.clone());
    };
    for detail in [1, 17, 33, 49, 2, 18, 3, 4, 5, 9, 6, 7, 8] {
        let never =
            Rc::new(move |tree: &Tree, l: &Record, r: &Record| l.detail != detail && same_type(tree, l, r));
        same(slips, &format!("{detail} never"), never);
    }
    for detail in 6..=8 {
        let always = Rc::new(move |tree: &Tree, l: &Record, r: &Record| {
            (l.detail, r.detail) == (detail, detail) || same_type(tree, l, r)
        });
        same(slips, &format!("{detail} always"), always);
    }
    for word in 0..3 {
        let without = move |tree: &Tree, l: &Record, r: &Record| {
            let others = (0..3).all(|at| at == word || l.words[at] == r.words[at]);
            if (l.detail, r.detail) == (7, 7) { others } else { same_type(tree, l, r) }
        };
        same(slips, &format!("arrays without word {}", letter(word)), Rc::new(without));
    }
    let too =
        |tree: &Tree, l: &Record, r: &Record| same_type(tree, l, r) && key_of(tree, l) == key_of(tree, r);
    same(slips, "key texts too", Rc::new(too));
    let or = |tree: &Tree, l: &Record, r: &Record| {
        same_type(tree, l, r) || key_of(tree, l).is_some_and(|key| Some(key) == key_of(tree, r))
    };
    same(slips, "or equal key texts", Rc::new(or));
}

/// Whether the names of two types are equal: the records, then the texts.
type SameName = fn(&Record, &Record, &[u8], &[u8]) -> bool;

/// How two names may be compared wrongly.
fn names(slips: &mut Slips) {
    let ways: Ways<SameName, 7> = [
        ("by offset and length", |l, r, _, _| l.words[..2] == r.words[..2]),
        ("by offset", |l, r, _, _| l.a() == r.a()),
        ("by length", |l, r, _, _| l.b() == r.b()),
        ("by the first byte", |_, _, left, right| left.first() == right.first()),
        ("but for the first byte", |_, _, left, right| {
            left.len() == right.len() && left.iter().skip(1).eq(right.iter().skip(1))
        }),
        ("but for the last byte", |_, _, left, right| {
            left.len() == right.len() && left.iter().rev().skip(1).eq(right.iter().rev().skip(1))
        }),
        ("as far as both go", |_, _, left, right| left.iter().zip(right).all(|(l, r)| l == r)),
    ];
    for (name, way) in ways {
        let same: Same = Rc::new(move |tree: &Tree, l: &Record, r: &Record| {
            let (left, right) = (name_of(tree, l), name_of(tree, r));
            match (l.detail, r.detail, left, right) {
                (8, 8, Some(left), Some(right)) => way(l, r, left, right),
                _ => same_type(tree, l, r),
            }
        });
        slips.add(format!("equal names {name}"), move |rules| rules.same = same.clone());
    }
}
