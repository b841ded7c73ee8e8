//! Builds the driver with the proved store, a program for x86-64 as the proved
//! library is.
//!
//! Where the library is missing, no driver is built, and whoever starts it is
//! told so: the tests of other packages need not wait.

use std::env;
use std::path::{Path, PathBuf};
use std::process::Command;

fn main() {
    let package = PathBuf::from(variable("CARGO_MANIFEST_DIR"));
    let repository = package.join("../..");
    let out = PathBuf::from(variable("OUT_DIR"));
    let archive = repository.join("target/staticlib/libstore.a");
    let compiler = repository.join("tools/cc-x86");
    let runner = repository.join("tools/run-x86");
    let driver = package.join("driver.c");
    let header = repository.join("include/yarugota.h");
    for path in [&archive, &compiler, &driver, &header] {
        println!("cargo:rerun-if-changed={}", path.display());
    }
    println!("cargo:rerun-if-changed=build.rs");

    let mut proved = String::new();
    if archive.exists() {
        let program = out.join("driver");
        run(Command::new(compiler).args([&program, &driver, &archive]));
        proved = shown(&program);
    }
    println!("cargo:rustc-env=DRIVER_PROVED={proved}");
    println!("cargo:rustc-env=RUN_X86={}", shown(&runner));
}

fn variable(name: &str) -> String {
    env::var(name).expect("cargo tells a build script where it is")
}

fn shown(path: &Path) -> String {
    path.display().to_string()
}

fn run(command: &mut Command) {
    let status = command.status();
    let built = status.is_ok_and(|status| status.success());
    assert!(built, "{command:?} did not build a driver");
}
