//! Compiles `floor.c` with the machine's C compiler and links it.

use std::env;
use std::path::PathBuf;
use std::process::Command;

fn main() {
    println!("cargo:rerun-if-changed=floor.c");
    println!("cargo:rerun-if-changed=../include/cueledger.h");
    let object = PathBuf::from(env::var_os("OUT_DIR").unwrap()).join("floor.o");
    let compiled = Command::new("cc").args(["-O3", "-Wall", "-Wextra", "-c", "floor.c", "-o"]).arg(&object).status();
    assert!(compiled.expect("cc").success(), "floor.c does not compile");
    println!("cargo:rustc-link-arg={}", object.display());
}
