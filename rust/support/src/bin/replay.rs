//! Replays vectors from standard input on the model, and tells the first
//! differences.

use std::io::{self, Read};
use std::process::ExitCode;

use yarugota_support::{model, vectors};

const SHOWN: usize = 10;

fn main() -> ExitCode {
    let mut text = String::new();
    if let Err(error) = io::stdin().read_to_string(&mut text) {
        eprintln!("cannot read the vectors: {error}");
        return ExitCode::FAILURE;
    }
    let replay = match vectors::replay(&text, model) {
        Ok(replay) => replay,
        Err(error) => {
            eprintln!("{error}");
            return ExitCode::FAILURE;
        }
    };
    for (line, difference) in replay.differences.iter().take(SHOWN) {
        println!("line {line}: {difference}");
    }
    println!(
        "{} calls, {} differences",
        replay.calls,
        replay.differences.len()
    );
    if replay.differences.is_empty() {
        ExitCode::SUCCESS
    } else {
        ExitCode::FAILURE
    }
}
