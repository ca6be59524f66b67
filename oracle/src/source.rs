//! A judged tree as a program text, with record numbers, for people to read.

use std::fmt::Write;

use crate::show::{BINARY_SIGNS, UNARY_SIGNS, readable};
use crate::tree::*;

/// All functions of a tree that the judge accepts.
pub fn source_text(tree: &Tree) -> String {
    let mut text = String::new();
    for function in tree.of_kind(FUNCTION) {
        text += &signature(tree, function);
        let own = tree.at(function);
        if own.detail & 4 != 0 {
            block(tree, own.e(), 1, &mut text);
        }
    }
    text
}

fn name(tree: &Tree, record: u32) -> String {
    readable(tree.own_text(record)).trim_matches('"').to_string()
}

fn type_text(tree: &Tree, ty: u32) -> String {
    if ty == NONE {
        return "nothing".to_string();
    }
    let own = tree.at(ty);
    let short = if own.detail & 16 != 0 { "short " } else { "" };
    let unsigned = if own.detail & 32 != 0 { "unsigned " } else { "" };
    match own.detail & 15 {
        1 => format!("{short}{unsigned}Int"),
        2 => format!("{short}Float"),
        3 => "Bool".to_string(),
        4 => "Char".to_string(),
        5 => "Byte".to_string(),
        6 => format!("&{}", type_text(tree, own.a())),
        7 => format!("[{}; {}]", type_text(tree, own.a()), own.count()),
        8 => format!("Custom {}", readable(tree.slice(own.a(), own.b()))),
        _ => "Null".to_string(),
    }
}

fn signature(tree: &Tree, function: u32) -> String {
    let own = tree.at(function);
    let params = tree.items(own.c());
    let params =
        params.iter().map(|at| format!("{}: {}", name(tree, *at), type_text(tree, tree.at(*at).c())));
    let mut params: Vec<String> = params.collect();
    if own.detail & 2 != 0 {
        params.push("...".to_string());
    }
    format!(
        "#{function} {}{}({}) -> {}  [{}]{}\n",
        if own.detail & 1 != 0 { "external " } else { "" },
        name(tree, own.a()),
        params.join(", "),
        type_text(tree, own.d()),
        name(tree, own.b()),
        if own.detail & 4 != 0 { "" } else { " no body" },
    )
}

fn block(tree: &Tree, list: u32, depth: usize, text: &mut String) {
    for at in tree.items(list) {
        _ = writeln!(text, "{}#{at} {}", "    ".repeat(depth), statement(tree, at));
        let own = tree.at(at);
        match own.kind {
            IF => {
                block(tree, own.b(), depth + 1, text);
                if own.detail & 1 != 0 {
                    _ = writeln!(text, "{}otherwise", "    ".repeat(depth));
                    block(tree, own.c(), depth + 1, text);
                }
            }
            WHILE => block(tree, own.b(), depth + 1, text),
            FOR => block(tree, own.d(), depth + 1, text),
            _ => {}
        }
    }
}

fn statement(tree: &Tree, at: u32) -> String {
    let own = tree.at(at);
    match own.kind {
        DECLARE => format!("{}: {}", name(tree, at), type_text(tree, own.c())),
        INIT if own.detail == 1 => format!("constant {} = {}", name(tree, at), expr(tree, own.c())),
        INIT => format!("{} = {}", name(tree, at), expr(tree, own.c())),
        RETURN => format!("return {}", expr(tree, own.a())),
        CALL_STATEMENT => format!("do {}", expr(tree, own.a())),
        IF => format!("if {}", expr(tree, own.a())),
        WHILE => format!("while {}", expr(tree, own.a())),
        FOR => {
            let ty = tree.at(own.a()).c();
            let ty = if ty == NONE { String::new() } else { format!(": {}", type_text(tree, ty)) };
            let bounds = (expr(tree, own.b()), expr(tree, own.c()));
            format!("for {}{ty} from {} until {}", name(tree, own.a()), bounds.0, bounds.1)
        }
        BREAK => "break".to_string(),
        _ => "continue".to_string(),
    }
}

/// Literals carry their marks: s short, u unsigned.
fn expr(tree: &Tree, at: u32) -> String {
    let own = tree.at(at);
    let op = usize::from(own.detail);
    let marks = ["", "s", "u", "us"];
    match own.kind {
        INT => format!("{}{}", own.value() as i64, marks[op]),
        FLOAT => format!("{:?}{}", f64::from_bits(own.value()), marks[op]),
        STR => readable(tree.own_text(at)),
        BOOL => (own.detail == 1).to_string(),
        NAME => name(tree, at),
        NULL => "null".to_string(),
        SIZE_OF => format!("sizeof({})", type_text(tree, own.a())),
        UNARY => format!("{} {}", UNARY_SIGNS[op], expr(tree, own.a())),
        BINARY => format!("({} {} {})", expr(tree, own.a()), BINARY_SIGNS[op], expr(tree, own.b())),
        _ => {
            let args = tree.items(own.c());
            let args = args.iter().map(|item| argument(tree, *item)).collect::<Vec<_>>();
            format!("{}({})", name(tree, at), args.join(", "))
        }
    }
}

fn argument(tree: &Tree, item: u32) -> String {
    let own = tree.at(item);
    if own.kind == VALUE { expr(tree, own.a()) } else { format!("type {}", type_text(tree, own.a())) }
}
