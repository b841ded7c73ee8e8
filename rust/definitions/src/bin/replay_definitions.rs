//! Replays a whole vector file on the definitions.
//!
//!     cargo run --release -p yarugota-definitions -- [VECTORS [ROOMS]]
//!
//! VECTORS and ROOMS, the folder of the rooms, are those of this repository if
//! they are not named. Prints every difference and ends with 1 if there is one.

use std::env;
use std::ffi::OsString;
use std::fs;
use std::path::{Path, PathBuf};
use std::process::ExitCode;
use std::time::Instant;
use yarugota_definitions::replay::{replay, Report};
use yarugota_definitions::rooms::Rooms;
use yarugota_definitions::vector_file;

fn main() -> ExitCode {
    let words: Vec<OsString> = env::args_os().skip(1).collect();
    let file = words.first().map_or_else(vector_file, PathBuf::from);
    let rooms = words.get(1).map(Path::new);
    let rooms = rooms.map_or_else(Rooms::ours, Rooms::new);
    let start = Instant::now();
    let vectors = fs::read_to_string(&file).map_err(|fault| fault.to_string());
    let report = vectors.and_then(|vectors| replay(&rooms, &vectors, usize::MAX));
    match report {
        Err(fault) => {
            eprintln!("{fault}");
            ExitCode::FAILURE
        }
        Ok(report) => {
            print(&report);
            println!("{} s", start.elapsed().as_secs());
            match report.differences.is_empty() {
                true => ExitCode::SUCCESS,
                false => ExitCode::FAILURE,
            }
        }
    }
}

fn print(report: &Report) {
    for difference in &report.differences {
        println!("{difference}");
    }
    let (calls, lost) = (report.calls, report.lost);
    let count = report.differences.len();
    println!("{calls} calls, {count} differences, {lost} calls lost behind them");
}
