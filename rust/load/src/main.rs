//! A long run of the store under load.
//!
//! ```text
//! load [--seed S] [--calls N] [--steps N]   rounds of seeds S, S + 1, .. of so many steps, until N calls are made
//! ```

use std::process::ExitCode;
use std::time::{Duration, Instant};

use yarugota_differential::Store;
use yarugota_load::Load;

/// Far above what any call here takes.
const DEADLINE: Duration = Duration::from_secs(120);

struct Asked {
    seed: u64,
    calls: u64,
    steps: u64,
}

fn main() -> ExitCode {
    match asked(std::env::args().skip(1)).and_then(|asked| run(&asked)) {
        Ok(report) => {
            println!("{report}");
            ExitCode::SUCCESS
        }
        Err(why) => {
            eprintln!("{why}");
            ExitCode::FAILURE
        }
    }
}

fn asked(mut words: impl Iterator<Item = String>) -> Result<Asked, String> {
    let mut asked = Asked {
        seed: 1,
        calls: 10_000_000,
        steps: 2000,
    };
    while let Some(word) = words.next() {
        let value = words.next().ok_or(format!("{word} needs a value"))?;
        let number = value.parse().map_err(|_| format!("{value} is no number"))?;
        match word.as_str() {
            "--seed" => asked.seed = number,
            "--calls" => asked.calls = number,
            "--steps" => asked.steps = number,
            _ => return Err(format!("{word} is not known")),
        }
    }
    Ok(asked)
}

fn run(asked: &Asked) -> Result<String, String> {
    let began = Instant::now();
    let seeds = asked.seed..u64::MAX;
    let (tally, summary) = Load::run(Store::chosen(), seeds, asked.steps, asked.calls, DEADLINE)?;
    let seconds = began.elapsed().as_secs_f64();
    Ok(format!(
        "{}\n{} calls, no difference, {seconds:.0} s",
        tally.report(&summary),
        summary.calls
    ))
}
