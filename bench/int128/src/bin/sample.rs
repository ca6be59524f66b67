//! Writes the sample that crates/int128_replay runs: its standard input, and what Rust's i128 answers.
//!
//!     cargo run --release --manifest-path bench/int128/Cargo.toml --bin sample

use std::fmt::Write as _;

fn apply(op: char, a: i128, b: i128) -> Option<i128> {
    let flag = |yes: bool| yes.then_some(1);
    match op {
        '+' => a.checked_add(b),
        '-' => a.checked_sub(b),
        '*' => a.checked_mul(b),
        '/' => a.checked_div(b),
        '%' => a.checked_rem(b),
        '<' => u32::try_from(b).ok().and_then(|n| a.checked_shl(n)),
        '>' => u32::try_from(b).ok().and_then(|n| a.checked_shr(n)),
        '&' => Some(a & b),
        '|' => Some(a | b),
        '^' => Some(a ^ b),
        '~' => Some(!a),
        'n' => a.checked_neg(),
        'l' => flag(a < b),
        'i' => flag(i32::try_from(a).is_ok()),
        'u' => flag(u32::try_from(a).is_ok()),
        'I' => flag(i64::try_from(a).is_ok()),
        'U' => flag(u64::try_from(a).is_ok()),
        _ => None,
    }
}

fn halves(x: i128) -> (u64, u64) {
    ((x as u128 >> 64) as u64, x as u64)
}

fn main() -> std::io::Result<()> {
    let mut values = vec![0i128, 1, -1, 7, -7, i128::MAX, i128::MIN, i128::MIN + 1];
    for k in [31, 32, 63, 64, 126] {
        let p = 1i128 << k;
        values.extend([p - 1, p, p + 1, -p - 1, -p, -p + 1]);
    }
    let few: Vec<i128> = values.iter().copied().filter(|v| v.unsigned_abs().count_ones() != 2).collect();
    let mut cases: Vec<(char, i128, i128)> = Vec::new();
    for op in ['+', '-', '*', '/', '%'] {
        cases.extend(few.iter().flat_map(|&a| [-1, 3, i128::MIN, 0, 1 << 64].map(|b| (op, a, b))));
    }
    for op in ['&', '|', '^', 'l'] {
        cases.extend(few.iter().map(|&a| (op, a, !a ^ 0x5555)));
    }
    for op in ['~', 'n', 'i', 'u', 'I', 'U'] {
        cases.extend(values.iter().map(|&a| (op, a, 0)));
    }
    for op in ['<', '>'] {
        for n in [-1, 0, 1, 31, 63, 64, 65, 126, 127, 128, 129, 1 << 32, 1 << 64, i128::MIN] {
            cases.extend([1, -1, i128::MAX, i128::MIN, 0x1234_5678_9abc_def0_0fed_cba9_8765_4321].map(|a| (op, a, n)));
        }
    }
    let (mut input, mut output) = (String::new(), String::new());
    for (op, a, b) in cases {
        let ((ah, al), (bh, bl)) = (halves(a), halves(b));
        writeln!(input, "{op}{ah:016x}{al:016x}{bh:016x}{bl:016x}").unwrap();
        match apply(op, a, b).map(halves) {
            Some((hi, lo)) => writeln!(output, "1 {hi:016x} {lo:016x}").unwrap(),
            None => writeln!(output, "0").unwrap(),
        }
    }
    let crate_folder = concat!(env!("CARGO_MANIFEST_DIR"), "/../../crates/int128_replay");
    std::fs::write(format!("{crate_folder}/stdin"), &input)?;
    std::fs::write(format!("{crate_folder}/stdout"), &output)
}
