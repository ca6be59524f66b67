//! What the tests of whole programs share: one line of text for the tables or the refusal.

use oracle::ast::{Fun, Layout};
use oracle::show::{by_span, instruction};
use oracle::tree::Tree;
use oracle::{Answer, Tables, convert, needed};

fn words(entry: &[u8]) -> Vec<u32> {
    entry.chunks_exact(4).map(|word| u32::from_le_bytes(word.try_into().unwrap())).collect()
}

/// Function by function: name, types of the variables, labels (kind and opening record) and body;
/// then strings and floats. Statements are s0, s1 .. in the order of the source, expressions e0,
/// e1 .., functions g0, g1 .., parameters p0, p1 ..
fn tables_line(tree: &Tree, tables: &Tables) -> String {
    let mut parts = Vec::new();
    let range = |table: &[u8], size: usize, first: u32, count: u32| -> Vec<Vec<u8>> {
        let entries = table.chunks_exact(size).map(<[u8]>::to_vec);
        entries.skip(first as usize).take(count as usize).collect()
    };
    for entry in tables.functions.chunks_exact(32) {
        let w = words(entry);
        let variables = range(&tables.variables, 4, w[4], w[5]);
        let variables: Vec<String> = variables.iter().map(|v| words(v)[0].to_string()).collect();
        let labels = range(&tables.labels, 8, w[6], w[7]);
        let label = |l: &Vec<u8>| format!("{}:{}", words(l)[0], by_span(tree, words(l)[1]));
        let labels: Vec<String> = labels.iter().map(label).collect();
        let body = range(&tables.instructions, 32, w[2], w[3]);
        let body: Vec<String> = body.iter().map(|i| instruction(i, &|r| by_span(tree, r))).collect();
        let open = if w[1] == 1 { "" } else { "!" };
        parts.push(format!(
            "{open}{} ({}) [{}] {}",
            by_span(tree, w[0]),
            variables.join(" "),
            labels.join(" "),
            body.join("; ")
        ));
    }
    for entry in tables.strings.chunks_exact(8) {
        let w = words(entry);
        parts.push(format!("{}={}", w[0], String::from_utf8_lossy(tree.slice(w[0], w[1]))));
    }
    for entry in tables.floats.chunks_exact(16) {
        let value = f64::from_le_bytes(entry[..8].try_into().unwrap());
        parts.push(format!("{value}{}", if words(entry)[2] == 1 { "s" } else { "" }));
    }
    parts.join(" | ")
}

/// The tables of a program as one line, or the refusal as number and place.
pub fn line(functions: &[Fun]) -> String {
    line_with(functions, false)
}

pub fn line_with(functions: &[Fun], needs_main: bool) -> String {
    let layout = Layout::program(functions);
    let (bytes, text) = (layout.tree(), &layout.text);
    let answer = convert(&bytes, text, needs_main, needed(bytes.len()));
    answer_line(&Tree::new(&bytes, text), answer)
}

pub fn answer_line(tree: &Tree, answer: Answer) -> String {
    match answer {
        Answer::Converted(tables) => tables_line(tree, &tables),
        Answer::Refused(refusal) if refusal.place == u32::MAX => format!("{} none", refusal.number),
        Answer::Refused(refusal) => format!("{} {}", refusal.number, by_span(tree, refusal.place)),
    }
}
