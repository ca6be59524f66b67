//! Links librudderplum.a, which `tools/staticlib rudderplum` writes to target/staticlib of the repository.
//! RUDDERPLUM_LIB_DIR names another folder that holds it; a relative one is taken from this package's folder.

use std::path::PathBuf;
use std::{env, process};

fn main() {
    println!("cargo:rerun-if-env-changed=RUDDERPLUM_LIB_DIR");
    let beside = PathBuf::from(env::var_os("CARGO_MANIFEST_DIR").unwrap()).join("../../target/staticlib");
    let named = env::var_os("RUDDERPLUM_LIB_DIR").map(PathBuf::from);
    let relative = named.as_ref().is_some_and(|folder| folder.is_relative());
    let folder =
        named.map_or(beside, |folder| PathBuf::from(env::var_os("CARGO_MANIFEST_DIR").unwrap()).join(folder));
    let archive = folder.join("librudderplum.a");
    if !archive.is_file() {
        eprintln!("rudderplum: there is no {}", archive.display());
        eprintln!(
            "rudderplum: run `tools/staticlib rudderplum`, or set RUDDERPLUM_LIB_DIR to the folder that holds the archive"
        );
        if relative {
            eprintln!(
                "rudderplum: a relative RUDDERPLUM_LIB_DIR is taken from bindings/rust, not from where cargo was started"
            );
        }
        process::exit(1);
    }
    println!("cargo:rerun-if-changed={}", archive.display());
    println!("cargo:rustc-link-search=native={}", folder.display());
    println!("cargo:rustc-link-lib=static=rudderplum");
}
