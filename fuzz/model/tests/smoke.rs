//! The fuzzer's harness over its seeds, without the fuzzer.

use std::path::Path;
use std::process::{Command, Output};

fn smoke(fault: Option<&str>) -> Output {
    let script = Path::new(env!("CARGO_MANIFEST_DIR")).join("../smoke");
    let mut command = Command::new(script);
    command.env_remove("YARUGOTA_FAULT");
    if let Some(name) = fault {
        command.env("YARUGOTA_FAULT", name);
    }
    command.output().expect("fuzz/smoke starts")
}

#[test]
fn the_seeds_pass() {
    let output = smoke(None);
    let errors = String::from_utf8_lossy(&output.stderr);
    assert!(output.status.success(), "{errors}");
    let printed = String::from_utf8_lossy(&output.stdout);
    assert!(printed.contains("5 inputs, no difference"), "{printed}");
}

/// DELVD of a first record gives 0, which the seeds do.
#[test]
fn a_wrong_store_does_not() {
    let output = smoke(Some("ZeroForLink"));
    let errors = String::from_utf8_lossy(&output.stderr);
    assert!(!output.status.success());
    assert!(errors.contains("the answers differ: DELVD"), "{errors}");
}
