//! Builds the driver that calls the C entries, as a program of its own for
//! x86-64, as the proved library is.
//!
//! Where the library is missing there is no driver, and whoever starts it is
//! told so: the tests of other packages need not wait.

use std::env;
use std::path::Path;
use std::process::Command;

fn main() {
    let package = env::var("CARGO_MANIFEST_DIR").expect("cargo names the package's directory");
    let repository = Path::new(&package).join("../..");
    let library = repository.join("target/staticlib/libprobes.a");
    let source = Path::new(&package).join("driver.c");
    let driver = Path::new(&env::var("OUT_DIR").expect("cargo names a directory")).join("driver");
    let compiler = repository.join("tools/cc-x86");
    let header = repository.join("include/yarugota.h");
    for file in [&library, &source, &compiler, &header] {
        println!("cargo:rerun-if-changed={}", file.display());
    }
    println!("cargo:rerun-if-changed=build.rs");
    println!(
        "cargo:rustc-env=RUN_X86={}",
        repository.join("tools/run-x86").display()
    );
    if !library.exists() {
        println!("cargo:rustc-env=DRIVER=");
        return;
    }
    let built = Command::new(&compiler)
        .args([&driver, &source, &library])
        .status()
        .expect("the compiler's script starts");
    assert!(built.success(), "the driver was not built");
    println!("cargo:rustc-env=DRIVER={}", driver.display());
}
