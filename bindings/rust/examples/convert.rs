//! Converts the two files named as arguments and prints each body, its instructions below the statements that they came
//! from: `cargo run --example convert TREE TEXT`.

use rudderplum::{Kind, convert};

/// A statement's kind by its record's first byte.
fn statement(tree: &[u8], record: u32) -> &'static str {
    let names = ["Declare", "Init", "Return", "Call", "If", "While", "For", "Break", "Continue"];
    let kind = tree[record as usize * rudderplum::RECORD_BYTES] as usize;
    names.get(kind.wrapping_sub(15)).unwrap_or(&"?")
}

fn main() -> Result<(), Box<dyn std::error::Error>> {
    let mut files = std::env::args().skip(1);
    let (Some(tree), Some(text)) = (files.next(), files.next()) else {
        return Err("usage: convert TREE TEXT".into());
    };
    let (tree, text) = (std::fs::read(tree)?, std::fs::read(text)?);
    let tables = match convert(&tree, &text, false) {
        Ok(tables) => tables,
        Err(refusal) => {
            println!("refused: {refusal}");
            return Ok(());
        }
    };
    for function in tables.functions().filter(|function| function.has_body) {
        println!("function of record {}", function.record);
        for instruction in tables.body(&function) {
            match instruction.kind {
                Kind::Comment(record) => println!("  {} (record {record})", statement(&tree, record)),
                kind => println!("    {:4} {kind:?}", instruction.number),
            }
        }
    }
    Ok(())
}
