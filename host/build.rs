//! Links the static library that `rt lib` writes in crates/store.
use std::env;
use std::path::PathBuf;

fn main() {
    let here = PathBuf::from(env::var("CARGO_MANIFEST_DIR").expect("cargo names the crate's folder"));
    let folder = here.join("../crates/store/out");
    let archive = folder.join("libstore.a");
    println!("cargo:rerun-if-changed={}", archive.display());
    assert!(archive.exists(), "{} is missing: run `rt lib` in crates/store", archive.display());
    println!("cargo:rustc-link-search=native={}", folder.display());
    println!("cargo:rustc-link-lib=static=store");
}
