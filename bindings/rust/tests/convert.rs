//! The conversion call, seen from Rust: typed tables, errors by Krc's names, and what lent buffers hold afterwards.

use rudderplum::{
    ANSWER_BYTES, Buffers, ErrorKind, Kind, LabelKind, MOST_RECORDS, Operand, RECORD_BYTES, Refusal, convert,
    convert_into, needed, read_conversion,
};

const NONE: u32 = u32::MAX;
const FILL: u8 = 0xA5;

/// Detail and inner type of the twelve types that come first.
const TYPES: [(u8, u32); 12] =
    [(1, 0), (17, 0), (33, 0), (49, 0), (2, 0), (18, 0), (3, 0), (4, 0), (5, 0), (9, 0), (6, 7), (6, 9)];

const TEXT: &[u8] = "pq가".as_bytes();

fn record(kind: u8, detail: u8, words: [u32; 5]) -> [u8; 32] {
    let mut bytes = [0; 32];
    (bytes[0], bytes[1]) = (kind, detail);
    for (at, word) in words.iter().enumerate() {
        bytes[4 + 4 * at..8 + 4 * at].copy_from_slice(&word.to_le_bytes());
    }
    bytes
}

fn twelve_types() -> Vec<u8> {
    TYPES.iter().flat_map(|&(detail, inner)| record(1, detail, [inner, 0, 0, 0, 0])).collect()
}

/// A function of two Bool parameters that returns `p op q`.
fn logic(op: u8) -> Vec<u8> {
    let mut tree = twelve_types();
    for rest in [
        record(24, 0, [0, 1, 6, 0, 0]),
        record(24, 0, [1, 1, 6, 0, 0]),
        record(12, 0, [13, NONE, 0, 0, 0]),
        record(12, 0, [12, 14, 0, 0, 0]),
        record(6, 0, [2, 3, 0, 0, 0]),
        record(6, 0, [2, 3, 0, 0, 0]),
        record(6, 0, [0, 1, 0, 0, 0]),
        record(6, 0, [1, 1, 0, 0, 0]),
        record(10, op, [18, 19, 0, 0, 0]),
        record(17, 0, [20, 0, 0, 0, 0]),
        record(12, 0, [21, NONE, 0, 0, 0]),
        record(25, 4, [16, 17, 15, 6, 22]),
    ] {
        tree.extend(rest);
    }
    tree
}

#[test]
fn twelve_types_convert_to_nothing() {
    let tables = convert(&twelve_types(), &[], false).unwrap();
    assert_eq!((tables.counts(), tables.visits()), ([0; 6], 0));
}

#[test]
fn a_main_that_is_needed() {
    let refusal = convert(&twelve_types(), &[], true).unwrap_err();
    assert_eq!(refusal, Refusal { kind: ErrorKind::NoMain, place: None, start: 0, end: 0 });
    assert_eq!(refusal.number(), 10);
}

#[test]
fn an_and_jumps_past_its_right_side() {
    let tables = convert(&logic(1), TEXT, false).unwrap();
    assert_eq!(tables.counts(), [1, 6, 3, 2, 0, 0]);
    // p, q, and the And itself.
    assert_eq!(tables.visits(), 3);
    let function = tables.functions().next().unwrap();
    assert!(function.has_body && function.record == 23);
    let var = |at| Operand::Var(at);
    let kinds: Vec<Kind> = tables.body(&function).map(|instruction| instruction.kind).collect();
    assert_eq!(
        kinds,
        [
            Kind::Comment(21),
            Kind::Copy { dest: 2, src: var(0) },
            Kind::JumpIfNot { cond: var(2), target: 1 },
            Kind::Copy { dest: 2, src: var(1) },
            Kind::Label(1),
            Kind::Return(var(2)),
        ]
    );
    assert_eq!(tables.variables().collect::<Vec<_>>(), [6, 6, 6]);
    let labels: Vec<_> = tables.labels().map(|label| (label.kind, label.opener)).collect();
    assert_eq!(labels, [(LabelKind::LogicRhs, 20), (LabelKind::LogicEnd, 20)]);
}

#[test]
fn an_error_of_krc_has_its_name_and_place() {
    // p + q of Bools: WrongOperands, at the Binary.
    let refusal = convert(&logic(13), TEXT, false).unwrap_err();
    assert_eq!((refusal.kind, refusal.place), (ErrorKind::WrongOperands, Some(20)));
}

#[test]
fn lent_buffers_after_each_kind_of_answer() {
    let tree = logic(0);
    let mut bad = tree.clone();
    bad[13 * 32 + 2] = 1;
    // The tree, how many bytes each buffer has more than it needs, and the byte behind what is written.
    for (tree, extra, rest) in [(&tree, 5, 0), (&logic(13), 0, 0), (&bad, 3, 0), (&tree, -1, FILL)] {
        let mut owned = needed(tree.len()).map(|len| vec![FILL; (len as isize + extra) as usize]);
        let [instructions, variables, labels, functions, strings, floats, scratch] = &mut owned;
        let buffers = Buffers { instructions, variables, labels, functions, strings, floats, scratch };
        let mut answer = [FILL; ANSWER_BYTES + 2];
        assert!(convert_into(tree, TEXT, false, buffers, &mut answer));
        assert_eq!(answer[ANSWER_BYTES..], [FILL; 2]);
        let counts = read_conversion(answer[..ANSWER_BYTES].try_into().unwrap()).unwrap_or([0; 7]);
        let written =
            [32 * counts[1], 4 * counts[2], 8 * counts[3], 32 * counts[0], 8 * counts[4], 16 * counts[5], 0];
        for (buffer, written) in owned.iter().zip(written) {
            assert!(buffer[written..].iter().all(|&byte| byte == rest), "{answer:?}");
        }
    }
}

#[test]
fn a_short_answer_writes_nothing() {
    let tree = logic(1);
    let mut owned = needed(tree.len()).map(|len| vec![FILL; len]);
    let [instructions, variables, labels, functions, strings, floats, scratch] = &mut owned;
    let buffers = Buffers { instructions, variables, labels, functions, strings, floats, scratch };
    let mut answer = [FILL; ANSWER_BYTES - 1];
    assert!(!convert_into(&tree, TEXT, false, buffers, &mut answer));
    assert!(answer.iter().chain(owned.iter().flatten()).all(|&byte| byte == FILL));
}

#[test]
fn too_many_records_are_refused() {
    let refusal = convert(&vec![0; (MOST_RECORDS + 1) * RECORD_BYTES], &[], false).unwrap_err();
    assert_eq!((refusal.kind, refusal.place), (ErrorKind::BadTree, None));
}
