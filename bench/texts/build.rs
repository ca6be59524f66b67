//! Links librecords_c.a, which `tools/staticlib records_c` writes to target/staticlib of the repository. RECORDS_LIB_DIR names another folder,
//! as a whole path.

use std::env;

fn main() {
    println!("cargo:rerun-if-env-changed=RECORDS_LIB_DIR");
    let beside = format!("{}/../../target/staticlib", env::var("CARGO_MANIFEST_DIR").unwrap());
    let folder = env::var("RECORDS_LIB_DIR").unwrap_or(beside);
    println!("cargo:rerun-if-changed={folder}/librecords_c.a");
    println!("cargo:rustc-link-search=native={folder}");
    println!("cargo:rustc-link-lib=static=records_c");
}
