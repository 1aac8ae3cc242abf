//! Finds libasciimath.a: in the folder ASCIIMATH_LIB_DIR, else where `rt lib` in crates/asciimath puts it.

use std::path::PathBuf;

fn main() {
    println!("cargo::rerun-if-env-changed=ASCIIMATH_LIB_DIR");
    let folder = match std::env::var_os("ASCIIMATH_LIB_DIR") {
        Some(folder) => PathBuf::from(folder),
        None => PathBuf::from(env!("CARGO_MANIFEST_DIR")).join("../../crates/asciimath/out"),
    };
    let library = folder.join("libasciimath.a");
    println!("cargo::rerun-if-changed={}", library.display());
    if !library.exists() {
        println!(
            "cargo::error=no {}: run `rt lib` in crates/asciimath, or set ASCIIMATH_LIB_DIR",
            library.display()
        );
    }
    println!("cargo::rustc-link-search=native={}", folder.display());
    println!("cargo::rustc-link-lib=static=asciimath");
}
