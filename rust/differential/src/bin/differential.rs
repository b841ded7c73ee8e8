//! A longer run of the proved store beside the model.
//!
//! ```text
//! differential [--seed S] [--calls N]    seeds S, S + 1, .. of every suite with seeds, one at least, until N calls are made
//! differential --suite NAME [--seed S]   one suite with one seed
//! differential --case FILE               one case that was written down, in the form of the vectors
//! differential --mistakes                which suite notices which mistake that the model can be told to make
//! ```

use std::process::ExitCode;
use std::time::Instant;

use yarugota_differential::suites::{Suite, ALL};
use yarugota_differential::{Beside, Direct, Store};
use yarugota_model::Fault;
use yarugota_support::vectors::replay;

/// What was asked for.
struct Asked {
    seed: u64,
    calls: u64,
    suite: Option<Suite>,
    case: Option<String>,
    mistakes: bool,
}

fn main() -> ExitCode {
    let done = asked(std::env::args().skip(1)).and_then(|asked| match asked {
        Asked { mistakes: true, .. } => {
            mistakes();
            Ok(())
        }
        Asked {
            case: Some(file), ..
        } => one_case(&file),
        Asked {
            suite: Some(suite),
            seed,
            ..
        } => one_seed(suite, seed),
        Asked { seed, calls, .. } => many(seed, calls),
    });
    match done {
        Ok(()) => ExitCode::SUCCESS,
        Err(why) => {
            eprintln!("{why}");
            ExitCode::FAILURE
        }
    }
}

fn asked(mut words: impl Iterator<Item = String>) -> Result<Asked, String> {
    let mut asked = Asked {
        seed: 0,
        calls: 1_000_000,
        suite: None,
        case: None,
        mistakes: false,
    };
    while let Some(word) = words.next() {
        if word == "--mistakes" {
            asked.mistakes = true;
            continue;
        }
        let value = words.next().ok_or(format!("{word} needs a value"))?;
        let number = || value.parse().map_err(|_| format!("{value} is no number"));
        match word.as_str() {
            "--seed" => asked.seed = number()?,
            "--calls" => asked.calls = number()?,
            "--case" => asked.case = Some(value),
            "--suite" => {
                let suite = Suite::named(&value);
                asked.suite = Some(suite.ok_or(format!("there is no suite {value}"))?);
            }
            _ => return Err(format!("{word} is not known")),
        }
    }
    Ok(asked)
}

fn one_seed(suite: Suite, seed: u64) -> Result<(), String> {
    let run = suite.on(Store::chosen(), seed..seed + 1);
    let summary = run.map_err(|difference| difference.report())?;
    println!(
        "suite {}, seed {seed}: {} calls, no difference",
        suite.name, summary.calls
    );
    Ok(())
}

fn many(first: u64, calls: u64) -> Result<(), String> {
    let began = Instant::now();
    let mut beside = Beside::new(Store::chosen());
    let mut last = first;
    loop {
        for suite in ALL.iter().filter(|suite| suite.seeded()) {
            suite.run(&mut beside, last);
        }
        if beside.calls() >= calls || beside.differs() {
            break;
        }
        last += 1;
    }
    let summary = beside.finish().map_err(|difference| difference.report())?;
    let seconds = began.elapsed().as_secs_f64();
    println!(
        "seeds {first} to {last}: {} calls, no difference, {seconds:.0} s",
        summary.calls
    );
    for ((operation, status), times) in summary.statuses {
        println!(
            "  {} {} {times}",
            String::from_utf8_lossy(operation.name()),
            status.code()
        );
    }
    Ok(())
}

fn one_case(file: &str) -> Result<(), String> {
    let text = std::fs::read_to_string(file).map_err(|error| format!("{file}: {error}"))?;
    let mut store = Direct::new(Store::chosen());
    let replay = replay(&text, |call, schema, base| store.call(call, schema, base))?;
    match replay.differences.first() {
        None => {
            println!("{} calls, no difference", replay.calls);
            Ok(())
        }
        Some((line, difference)) => Err(format!("line {line}: {difference}")),
    }
}

/// Every suite by itself on every mistake, with the gate's seeds.
fn mistakes() {
    for &fault in Fault::ALL {
        let store = Store::Model(Some(fault));
        let notices = |suite: &&Suite| suite.on(store, 0..suite.seeds).is_err();
        let by: Vec<&str> = ALL.iter().filter(notices).map(|suite| suite.name).collect();
        println!("{fault:?}, {}: {}", fault.what(), by.join(", "));
    }
}
