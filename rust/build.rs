//! Links `libcapi.a` from `CUELEDGER_LIB_DIR`, or from `../target/staticlib` beside this crate.

use std::env;
use std::path::PathBuf;

fn main() {
    println!("cargo:rerun-if-env-changed=CUELEDGER_LIB_DIR");
    // set by tests/run: cargo goes by dates, and another archive may be older than the last build
    println!("cargo:rerun-if-env-changed=CUELEDGER_LIB_SUM");
    let dir = match env::var_os("CUELEDGER_LIB_DIR") {
        Some(dir) => PathBuf::from(dir),
        None => PathBuf::from(env::var_os("CARGO_MANIFEST_DIR").unwrap()).join("../target/staticlib"),
    };
    let archive = dir.join("libcapi.a");
    println!("cargo:rerun-if-changed={}", archive.display());
    if !archive.is_file() {
        println!("cargo:warning={} not found: run `make lib`, or set CUELEDGER_LIB_DIR", archive.display());
    }
    println!("cargo:rustc-link-search=native={}", dir.display());
    println!("cargo:rustc-link-lib=static=capi");
}
