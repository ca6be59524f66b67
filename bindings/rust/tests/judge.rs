//! The promises of the call, seen from Rust: answers, and what each buffer holds afterwards.

use rudderplum::{
    Buffers, ErrorKind, MOST_RECORDS, RECORD_BYTES, Refusal, judge, judge_into, needed, read_answer,
};

const FILL: u8 = 0xA5;
const SCRATCH: usize = 6;

/// Detail and inner type of the twelve types that come first.
const TYPES: [(u8, u8); 12] =
    [(1, 0), (17, 0), (33, 0), (49, 0), (2, 0), (18, 0), (3, 0), (4, 0), (5, 0), (9, 0), (6, 7), (6, 9)];

fn record(kind: u8, detail: u8, a: u32) -> [u8; 32] {
    let mut bytes = [0; 32];
    (bytes[0], bytes[1]) = (kind, detail);
    bytes[4..8].copy_from_slice(&a.to_le_bytes());
    bytes
}

fn twelve_types() -> Vec<u8> {
    TYPES.iter().flat_map(|&(detail, inner)| record(1, detail, u32::from(inner))).collect()
}

/// Addresses of addresses after the twelve types, so that the last record is so deep.
fn as_deep_as(depth: u32) -> Vec<u8> {
    let mut tree = twelve_types();
    // Record 10, an Address of Char, is 2 deep.
    for above in 0..depth - 2 {
        tree.extend(record(1, 6, if above == 0 { 10 } else { 11 + above }));
    }
    tree
}

struct Lent {
    buffers: [Vec<u8>; 7],
}

impl Lent {
    fn of(lens: [usize; 7]) -> Self {
        Lent { buffers: lens.map(|len| vec![FILL; len]) }
    }

    fn lend(&mut self) -> Buffers<'_> {
        let [instructions, variables, labels, functions, strings, floats, scratch] = &mut self.buffers;
        Buffers { instructions, variables, labels, functions, strings, floats, scratch }
    }

    fn outputs_are(&self, byte: u8) -> bool {
        self.buffers[..SCRATCH].iter().flatten().all(|&b| b == byte)
    }

    fn scratch_is(&self, byte: u8) -> bool {
        self.buffers[SCRATCH].iter().all(|&b| b == byte)
    }
}

fn refusal(number: u32, place: Option<u32>) -> Result<(), Refusal> {
    let kind = ErrorKind::from_number(number).expect("a number of document 01");
    Err(Refusal { kind, place, start: 0, end: 0 })
}

/// The answer, and whether outputs and scratch are then the bytes named.
fn judged(tree: &[u8], lens: [usize; 7], outputs: u8, scratch: u8) -> Result<(), Refusal> {
    let mut lent = Lent::of(lens);
    let answer = judge(tree, &[], lent.lend());
    assert!(lent.outputs_are(outputs), "outputs after {answer:?}");
    assert!(lent.scratch_is(scratch), "scratch after {answer:?}");
    answer
}

#[test]
fn twelve_types_are_accepted() {
    let tree = twelve_types();
    assert_eq!(judged(&tree, needed(tree.len()), FILL, 0), Ok(()));
    assert_eq!(judged(&tree, needed(tree.len()).map(|len| len + 3), FILL, 0), Ok(()));
}

#[test]
fn a_bad_record_is_refused_and_all_is_zero() {
    let mut tree = twelve_types();
    tree[5 * 32 + 2] = 1;
    assert_eq!(judged(&tree, needed(tree.len()), 0, 0), refusal(24, Some(5)));
    tree[3 * 32 + 20] = 1;
    assert_eq!(judged(&tree, needed(tree.len()), 0, 0), refusal(24, Some(3)));
}

#[test]
fn a_deep_record_is_refused_and_all_is_zero() {
    let tree = as_deep_as(64);
    assert_eq!(judged(&tree, needed(tree.len()), FILL, 0), Ok(()));
    let tree = as_deep_as(66);
    assert_eq!(judged(&tree, needed(tree.len()), 0, 0), refusal(25, Some(12 + 62)));
}

#[test]
fn wrong_lengths_write_nothing() {
    let tree = twelve_types();
    for len in [0, 1, 11 * 32, 12 * 32 - 1] {
        assert_eq!(judged(&tree[..len], needed(tree.len()), FILL, FILL), refusal(24, None));
    }
    let long = vec![0; (MOST_RECORDS + 1) * RECORD_BYTES];
    assert_eq!(judged(&long, needed(long.len()), FILL, FILL), refusal(24, None));
    // One less is judged record by record, as any of 2,049 is since the limit was raised.
    assert_eq!(judged(&long[32..], needed(long.len()), 0, 0), refusal(24, Some(0)));
    assert_eq!(judged(&long[..2049 * 32], needed(2049 * 32), 0, 0), refusal(24, Some(0)));
    assert_eq!(judged(&[], [0; 7], FILL, FILL), refusal(24, None));
}

#[test]
fn a_short_buffer_writes_nothing() {
    let mut tree = twelve_types();
    tree[2] = 1;
    assert_eq!(needed(tree.len())[SCRATCH], 864);
    for which in 0..7 {
        let mut lens = needed(tree.len());
        lens[which] -= 1;
        assert_eq!(judged(&tree, lens, FILL, FILL), refusal(26, None));
    }
    assert_eq!(judged(&tree, [0; 7], FILL, FILL), refusal(26, None));
}

#[test]
fn a_short_answer_writes_nothing() {
    let mut tree = twelve_types();
    tree[2] = 1;
    for len in [0, 1, 15] {
        let mut lent = Lent::of(needed(tree.len()));
        let mut answer = vec![FILL; len];
        assert!(!judge_into(&tree, &[], lent.lend(), &mut answer));
        assert!(answer.iter().all(|&b| b == FILL));
        assert!(lent.outputs_are(FILL) && lent.scratch_is(FILL));
    }
}

#[test]
fn an_answer_is_sixteen_bytes() {
    let tree = twelve_types();
    let mut lent = Lent::of(needed(tree.len()));
    let mut answer = [FILL; 20];
    assert!(judge_into(&tree, &[], lent.lend(), &mut answer));
    assert_eq!(answer[..8], [0, 0, 0, 0, 255, 255, 255, 255]);
    assert_eq!(answer[8..16], [0; 8]);
    assert_eq!(answer[16..], [FILL; 4]);

    let mut lent = Lent::of(needed(tree.len()));
    let mut answer = [FILL; 16];
    assert!(judge_into(&tree[..32], &[], lent.lend(), &mut answer));
    assert_eq!(answer, [24, 0, 0, 0, 255, 255, 255, 255, 0, 0, 0, 0, 0, 0, 0, 0]);
    assert_eq!(read_answer(&answer), refusal(24, None));
}

#[test]
fn a_text_may_end_with_the_buffer() {
    // A Custom named by the last three bytes of the text, and by one byte too many.
    for (offset, len, answer) in [(2u32, 3u32, Ok(())), (2, 4, refusal(24, Some(12))), (5, 0, Ok(()))] {
        let mut tree = twelve_types();
        let mut custom = record(1, 8, offset);
        custom[8..12].copy_from_slice(&len.to_le_bytes());
        tree.extend(custom);
        let mut lent = Lent::of(needed(tree.len()));
        assert_eq!(judge(&tree, b"abcde", lent.lend()), answer);
    }
}
