// Links the static library that `tools/staticlib int128_c` writes below target/ of the repository.
fn main() {
    let root = std::env::var("CARGO_MANIFEST_DIR").unwrap();
    println!("cargo:rustc-link-search=native={root}/../../target/staticlib");
    println!("cargo:rustc-link-lib=static=int128_c");
    println!("cargo:rerun-if-changed={root}/../../target/staticlib/libint128_c.a");
}
