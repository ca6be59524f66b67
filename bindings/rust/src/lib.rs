//! Safe calls of Rudderplum's proved library: a tree of records is judged, and a good one is converted to flat bodies.
//!
//! `convert` brings its own buffers and hands the tables back as typed entries. `convert_into` and `judge_into` take lent
//! buffers; what each of them holds afterwards is proved.

mod error;
mod tables;

pub use error::{ErrorKind, Refusal};
pub use tables::{Float, Function, Instruction, Kind, Label, LabelKind, Operand, Str, Tables};

/// Bytes of a record.
pub const RECORD_BYTES: usize = 32;

/// Bytes for each record that the buffers need: instructions, variables, labels, functions, strings, floats, scratch.
pub const BYTES_PER_RECORD: [usize; 7] = [320, 12, 24, 32, 8, 32, 72];

/// The fewest and the most records that a tree may have.
pub const FEWEST_RECORDS: usize = 12;
pub const MOST_RECORDS: usize = 16384;

/// Bytes of the judge's answer, four little-endian words of 32 bits, and of a conversion's, eight.
pub const JUDGE_ANSWER_BYTES: usize = 16;
pub const ANSWER_BYTES: usize = 32;

mod linked {
    unsafe extern "C" {
        pub fn rudderplum_judge(
            tree: *const u8,
            tree_len: usize,
            text: *const u8,
            text_len: usize,
            instructions: *mut u8,
            instructions_len: usize,
            variables: *mut u8,
            variables_len: usize,
            labels: *mut u8,
            labels_len: usize,
            functions: *mut u8,
            functions_len: usize,
            strings: *mut u8,
            strings_len: usize,
            floats: *mut u8,
            floats_len: usize,
            scratch: *mut u8,
            scratch_len: usize,
            answer: *mut u8,
            answer_len: usize,
        ) -> u32;

        pub fn rudderplum_convert(
            tree: *const u8,
            tree_len: usize,
            text: *const u8,
            text_len: usize,
            needs_main: u32,
            instructions: *mut u8,
            instructions_len: usize,
            variables: *mut u8,
            variables_len: usize,
            labels: *mut u8,
            labels_len: usize,
            functions: *mut u8,
            functions_len: usize,
            strings: *mut u8,
            strings_len: usize,
            floats: *mut u8,
            floats_len: usize,
            scratch: *mut u8,
            scratch_len: usize,
            answer: *mut u8,
            answer_len: usize,
        ) -> u32;
    }
}

/// The buffers that a call may write.
pub struct Buffers<'a> {
    pub instructions: &'a mut [u8],
    pub variables: &'a mut [u8],
    pub labels: &'a mut [u8],
    pub functions: &'a mut [u8],
    pub strings: &'a mut [u8],
    pub floats: &'a mut [u8],
    pub scratch: &'a mut [u8],
}

/// How long each buffer has to be for a tree of so many bytes.
pub fn needed(tree_len: usize) -> [usize; 7] {
    BYTES_PER_RECORD.map(|bytes| bytes * (tree_len / RECORD_BYTES))
}

/// Converts a tree of any bytes; `needs_main` refuses a program without a `main`.
pub fn convert(tree: &[u8], text: &[u8], needs_main: bool) -> Result<Tables, Refusal> {
    // A tree above the limit is refused before any buffer is looked at.
    let lens = if tree.len() / RECORD_BYTES > MOST_RECORDS { [0; 7] } else { needed(tree.len()) };
    let mut owned = lens.map(|len| vec![0; len]);
    let [instructions, variables, labels, functions, strings, floats, scratch] = &mut owned;
    let buffers = Buffers { instructions, variables, labels, functions, strings, floats, scratch };
    let mut answer = [0; ANSWER_BYTES];
    convert_into(tree, text, needs_main, buffers, &mut answer);
    let counts = read_conversion(&answer)?;
    let [instructions, variables, labels, functions, strings, floats, _] = owned;
    Ok(Tables::new(counts, [functions, instructions, variables, labels, strings, floats]))
}

/// Judges a tree of any bytes.
///
/// Accepted: scratch is zero, the six outputs are as found. Refused with a place: scratch and outputs are zero. Refused
/// without a place: nothing was written.
pub fn judge(tree: &[u8], text: &[u8], buffers: Buffers) -> Result<(), Refusal> {
    let mut answer = [0; JUDGE_ANSWER_BYTES];
    judge_into(tree, text, buffers, &mut answer);
    read_answer(&answer)
}

/// `judge` with the answer as bytes: number (0 for accepted), place (FFFFFFFF for none), span start, span end. Bytes past
/// the sixteenth stay as found. With a shorter answer nothing is written anywhere, and the result is false.
pub fn judge_into(tree: &[u8], text: &[u8], buffers: Buffers, answer: &mut [u8]) -> bool {
    let b = buffers;
    // SAFETY: each pointer comes with the length of its slice; the slices that are written are borrowed mutably, so they
    // overlap nothing; the function is proved for any bytes and lengths, and keeps no pointer.
    let wrote = unsafe {
        linked::rudderplum_judge(
            tree.as_ptr(),
            tree.len(),
            text.as_ptr(),
            text.len(),
            b.instructions.as_mut_ptr(),
            b.instructions.len(),
            b.variables.as_mut_ptr(),
            b.variables.len(),
            b.labels.as_mut_ptr(),
            b.labels.len(),
            b.functions.as_mut_ptr(),
            b.functions.len(),
            b.strings.as_mut_ptr(),
            b.strings.len(),
            b.floats.as_mut_ptr(),
            b.floats.len(),
            b.scratch.as_mut_ptr(),
            b.scratch.len(),
            answer.as_mut_ptr(),
            answer.len(),
        )
    };
    wrote == 1
}

/// Converts into lent buffers, with the answer as bytes: 0 and the counts of functions, instructions, variables, labels,
/// strings and floats, and the visits; or number, place (FFFFFFFF for none), span start, span end, and zeros. Bytes past
/// the 32nd stay as found. With a shorter answer nothing is written anywhere, and the result is false.
///
/// Converted: each table stands at the start of its buffer, with zeros behind it, and scratch is zero. Refused for its
/// length or for short buffers (24 without a place, 26): nothing was written. Any other refusal: all seven are zero.
pub fn convert_into(tree: &[u8], text: &[u8], needs_main: bool, buffers: Buffers, answer: &mut [u8]) -> bool {
    let b = buffers;
    // SAFETY: as for `judge_into`.
    let wrote = unsafe {
        linked::rudderplum_convert(
            tree.as_ptr(),
            tree.len(),
            text.as_ptr(),
            text.len(),
            u32::from(needs_main),
            b.instructions.as_mut_ptr(),
            b.instructions.len(),
            b.variables.as_mut_ptr(),
            b.variables.len(),
            b.labels.as_mut_ptr(),
            b.labels.len(),
            b.functions.as_mut_ptr(),
            b.functions.len(),
            b.strings.as_mut_ptr(),
            b.strings.len(),
            b.floats.as_mut_ptr(),
            b.floats.len(),
            b.scratch.as_mut_ptr(),
            b.scratch.len(),
            answer.as_mut_ptr(),
            answer.len(),
        )
    };
    wrote == 1
}

fn word(bytes: &[u8], at: usize) -> u32 {
    u32::from_le_bytes([bytes[at], bytes[at + 1], bytes[at + 2], bytes[at + 3]])
}

/// The answer that a judging call wrote.
pub fn read_answer(answer: &[u8; JUDGE_ANSWER_BYTES]) -> Result<(), Refusal> {
    match word(answer, 0) {
        0 => Ok(()),
        number => Err(Refusal::new(number, word(answer, 4), word(answer, 8), word(answer, 12))),
    }
}

/// The answer that a conversion wrote: the counts of functions, instructions, variables, labels, strings and floats, and the visits.
pub fn read_conversion(answer: &[u8; ANSWER_BYTES]) -> Result<[usize; 7], Refusal> {
    match word(answer, 0) {
        0 => Ok(std::array::from_fn(|i| word(answer, 4 + 4 * i) as usize)),
        number => Err(Refusal::new(number, word(answer, 4), word(answer, 8), word(answer, 12))),
    }
}
