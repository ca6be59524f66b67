//! Writes a module file that takes Krc's own files in from the place that KRC_SRC names: its converter unmodified, and beside it
//! once more with the places changed that a request amends. The changed copies stay in the build folder.

use std::path::{Path, PathBuf};
use std::{env, fs, process};

const FILES: [&str; 4] = [
    "lexer/span.rs",
    "parser/postparser/structs.rs",
    "converter/convert_error.rs",
    "converter/ir/structs.rs",
];

/// What the unmodified and the amended converter each have for themselves; errors and flat bodies they share.
const CONVERTER: [&str; 6] = ["converter", "expressions", "functions", "scope", "statements", "types"];

/// A place where a request decides otherwise than the Rust, or asks what the Rust does.
struct Amendment {
    /// One of `CONVERTER`.
    file: &'static str,
    /// A text that stands in the file exactly once.
    find: &'static str,
    put: &'static str,
}

const AMENDMENTS: [Amendment; 6] = [
    // A left shift folds to nothing unless the shifted value, taken back right by the same count, gives the old one.
    Amendment {
        file: "types",
        find: "left.checked_shl(r)",
        put: "left.checked_shl(r).filter(|shifted| shifted >> r == left)",
    },
    // A value is fitted to the parameter at its position among all arguments: both kinds of call hand their arguments over, ..
    Amendment {
        file: "statements",
        find: "self.fit_args(operands, func,",
        put: "self.fit_args(args, operands, func,",
    },
    Amendment {
        file: "statements",
        find: "self.fit_args(operands, f,",
        put: "self.fit_args(args, operands, f,",
    },
    // .. and the fits go by the positions of the values.
    Amendment {
        file: "statements",
        find: "operands: Vec<IrOperand>,\n        func: &Function,",
        put: "given: &[Argument],\n        operands: Vec<IrOperand>,\n        func: &Function,",
    },
    Amendment {
        file: "statements",
        find: "for (i, op) in operands.into_iter().enumerate() {",
        put: "let mut positions = (0..given.len()).filter(|at| !matches!(given[*at], Argument::ToType(_)));
        for op in operands {
            let i = positions.next().expect(\"a position for each value\");",
    },
    // How many expressions the Rust types at least once is a count of the answer: each call is noted, which changes no answer.
    Amendment {
        file: "expressions",
        find: "fn get_type(&self, expr: &Expr, scope: &Scope) -> Result<Type, ConvertError> {",
        put: "fn get_type(&self, expr: &Expr, scope: &Scope) -> Result<Type, ConvertError> {
        crate::visits::typed(expr.span);",
    },
];

fn refuse(message: &str) -> ! {
    eprintln!("oracle: {message}");
    eprintln!(
        "oracle: set KRC_SRC to the root of Krc's source at 76b1116722 (the folder that holds src/converter)"
    );
    process::exit(1)
}

fn converter_file(root: &Path, name: &str) -> PathBuf {
    root.join(format!("converter/{name}.rs"))
}

fn source_root() -> PathBuf {
    let Some(root) = env::var_os("KRC_SRC").filter(|root| !root.is_empty()) else {
        refuse("KRC_SRC is not set");
    };
    let root = Path::new(&root).join("src");
    let root =
        fs::canonicalize(&root).unwrap_or_else(|err| refuse(&format!("KRC_SRC: {}: {err}", root.display())));
    let shared = FILES.iter().map(|file| root.join(file));
    for path in shared.chain(CONVERTER.iter().map(|name| converter_file(&root, name))) {
        if !path.is_file() {
            refuse(&format!("KRC_SRC: no file {}", path.display()));
        }
        println!("cargo:rerun-if-changed={}", path.display());
    }
    root
}

/// The text with its amendments; refuses to go on unless each finds its place.
fn amend(file: &Path, mut text: String, amendments: &[&Amendment]) -> String {
    for Amendment { find, put, .. } in amendments {
        let found = text.matches(find).count();
        if found != 1 {
            refuse(&format!(
                "{}: {find:?} is to be amended and stands there {found} times, not once",
                file.display()
            ));
        }
        text = text.replacen(find, put, 1);
    }
    text
}

/// A file of the amended converter: Krc's own where nothing in it is amended, else a changed copy in `folder`, under the same name.
fn amended_file(root: &Path, folder: &Path, name: &str) -> PathBuf {
    let file = converter_file(root, name);
    let amendments: Vec<&Amendment> = AMENDMENTS.iter().filter(|amendment| amendment.file == name).collect();
    if amendments.is_empty() {
        return file;
    }
    let text = fs::read_to_string(&file).unwrap_or_else(|err| refuse(&format!("{}: {err}", file.display())));
    write(&folder.join(format!("{name}.rs")), &amend(&file, text, &amendments))
}

fn write(path: &Path, text: &str) -> PathBuf {
    fs::write(path, text).unwrap_or_else(|err| refuse(&format!("{}: {err}", path.display())));
    path.to_path_buf()
}

fn module(name: &str, file: &Path) -> String {
    format!("#[path = {file:?}] pub mod {name};\n")
}

/// A converter of these files.
fn converter(file: impl Fn(&str) -> PathBuf) -> String {
    let mut text: String = CONVERTER.iter().map(|name| module(name, &file(name))).collect();
    // The folds are private to types.rs: a second copy of the file, opened from inside.
    text += &format!("pub mod open_types {{\ninclude!({:?});\n", file("types"));
    text += "pub fn fold_int(expr: &Expr) -> Option<i128> { int_value(expr) }\n";
    text += "pub fn fold_float(expr: &Expr) -> Option<f64> { float_value(expr) }\n";
    text += "pub fn fit(expr: &Expr, ty: &Type, expected: &Type) -> bool { fits(expr, ty, expected) }\n";
    text += "pub fn out_of_range(expr: &Expr, ty: &Type, expected: &Type) -> bool {\n";
    text += "range_error(expr, ty, expected).is_some()\n}\n}\n";
    // Questions over a scope need what Krc keeps within its converter module.
    let own = PathBuf::from(env::var_os("CARGO_MANIFEST_DIR").unwrap()).join("src");
    text + &module("probe", &own.join("probe.rs"))
}

fn main() {
    println!("cargo:rerun-if-env-changed=KRC_SRC");
    println!("cargo:rerun-if-changed=build.rs");
    let root = source_root();
    let out = PathBuf::from(env::var_os("OUT_DIR").unwrap());
    let folder = out.join("amended");
    fs::create_dir_all(&folder).unwrap_or_else(|err| refuse(&format!("{}: {err}", folder.display())));
    if let Some(stray) = AMENDMENTS.iter().find(|amendment| !CONVERTER.contains(&amendment.file)) {
        refuse(&format!("an amendment of {}, which is not taken in", stray.file));
    }
    let mut text = String::new();
    text += "#[allow(dead_code)] pub mod lexer {\n";
    text += &module("span", &root.join("lexer/span.rs"));
    text += "}\n#[allow(dead_code)] pub mod parser {\npub use crate::stand_ins::parser_token;\n";
    text += "pub mod postparser {\n";
    text += &module("structs", &root.join("parser/postparser/structs.rs"));
    text += "}\n}\n#[allow(dead_code, clippy::all)] pub mod converter {\npub mod ir {\n";
    text += &module("structs", &root.join("converter/ir/structs.rs"));
    text += "}\n";
    text += &module("convert_error", &converter_file(&root, "convert_error"));
    text += &converter(|name| converter_file(&root, name));
    text += "}\n#[allow(dead_code, clippy::all)] pub mod amended {\npub use crate::converter::{convert_error, ir};\n";
    text += &converter(|name| amended_file(&root, &folder, name));
    text += "}\n";
    write(&out.join("krc.rs"), &text);
}
