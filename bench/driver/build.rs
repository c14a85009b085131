//! Links the static library that `rt lib` writes in crates/bench_calls.
use std::path::Path;

fn main() {
    let here = std::env::var("CARGO_MANIFEST_DIR").unwrap();
    let folder = Path::new(&here).join("../../crates/bench_calls/out");
    let archive = folder.join("libbench_calls.a");
    println!("cargo:rerun-if-changed={}", archive.display());
    println!("cargo:rustc-link-search=native={}", folder.display());
    println!("cargo:rustc-link-lib=static=bench_calls");
}
