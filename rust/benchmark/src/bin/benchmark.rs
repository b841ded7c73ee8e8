//! Prints the table of times: the proved store beside the model.

use std::process::ExitCode;

use yarugota_benchmark::{grouped, measure, model, store, Row, Sizes};
use yarugota_model::Schema;

/// How many rounds are counted.
const ROUNDS: usize = 11;

fn main() -> ExitCode {
    if !yarugota::LINKED {
        eprintln!("the proved store is not linked in: start by rust/benchmark/run");
        return ExitCode::FAILURE;
    }
    let sizes = Sizes::FULL;
    match measure(sizes, ROUNDS, [store, model]) {
        Ok(rows) => print(sizes, &rows),
        Err(why) => {
            eprintln!("{why}");
            return ExitCode::FAILURE;
        }
    }
    ExitCode::SUCCESS
}

fn print(sizes: Sizes, rows: &[Row]) {
    let schema = Schema::decode(&sizes.schema()).expect("a schema that keeps every rule");
    let counts = [sizes.bottles, sizes.points(), schema.blocks() as u32];
    let [bottles, points, blocks] = counts.map(|count| grouped(count.into()));
    println!("{bottles} bottles, {points} points, {blocks} blocks; {ROUNDS} rounds; ns per call");
    println!();
    println!("| calls | number | store, best | store, median | model, best | model, median | ratio of best |");
    println!("|---|---|---|---|---|---|---|");
    for row in rows {
        let [ours, other] = row.times;
        let numbers = [ours.best, ours.median, other.best, other.median];
        let [a, b, c, d] = numbers.map(grouped);
        let calls = grouped(row.calls as f64);
        let ratio = decimals(ours.best / other.best);
        println!(
            "| {} | {calls} | {a} | {b} | {c} | {d} | {ratio} |",
            row.name
        );
    }
}

/// A small ratio needs one more place.
fn decimals(ratio: f64) -> String {
    let places = if ratio < 0.1 { 3 } else { 2 };
    format!("{ratio:.places$}")
}
