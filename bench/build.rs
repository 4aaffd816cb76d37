//! Points the linker at the archives: target/libzlatomruk.a, which `tools/archive` makes and C links, and that of one clause's rules, which
//! `rt lib` makes in crates/bench_clause_c for these comparisons alone.

use std::path::Path;

fn main() {
    let root = Path::new(env!("CARGO_MANIFEST_DIR")).join("..");
    link(&root.join("target"), "zlatomruk", "tools/archive");
    link(&root.join("crates/bench_clause_c/out"), "bench_clause_c", "cd crates/bench_clause_c && rt lib");
}

fn link(folder: &Path, library: &str, command: &str) {
    let archive = folder.join(format!("lib{library}.a"));
    println!("cargo:rerun-if-changed={}", archive.display());
    if !archive.is_file() {
        eprintln!("error: {} is missing", archive.display());
        eprintln!("note: bench/run makes it, and so does `{command}` at the root of the repository");
        std::process::exit(1);
    }
    println!("cargo:rustc-link-search=native={}", folder.display());
    println!("cargo:rustc-link-lib=static={library}");
}
