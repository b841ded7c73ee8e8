//! Prints where the time of the proved store's calls goes.

use std::process::ExitCode;

use yarugota_benchmark::stops::Ground;
use yarugota_benchmark::{grouped, model, store, Side, Sizes, Stop};

/// Each figure is the best of so many rounds.
const ROUNDS: usize = 301;
/// Live points in front of the record that is looked for.
const IN_FRONT: [u32; 5] = [0, 10_000, 20_000, 30_000, 39_000];

/// A title, and calls of which each gets further than the one before.
type Steps<'a> = (&'static str, Vec<Stop<'a>>);
/// A title, and the same calls by store and model, for each of `IN_FRONT`.
type Beside<'a> = (&'static str, [Vec<Stop<'a>>; 2]);

fn main() -> ExitCode {
    if !yarugota::LINKED {
        eprintln!("the proved store is not linked in: start by rust/benchmark/profile");
        return ExitCode::FAILURE;
    }
    let ground = Ground::new(Sizes::FULL);
    let mut steps = steps(&ground);
    let mut beside = beside(&ground);
    // Every round makes all of them, so that a busy moment of the machine
    // does not meet some alone.
    for _ in 0..ROUNDS {
        let ours = steps.iter_mut().flat_map(|(_, stops)| stops);
        let both = beside.iter_mut().flat_map(|(_, sides)| sides).flatten();
        ours.chain(both).for_each(|stop| stop.round(&ground.schema));
    }
    println!("ns per call, the best of {ROUNDS} rounds");
    steps.iter().for_each(print_steps);
    beside.iter().for_each(print_beside);
    ExitCode::SUCCESS
}

fn steps(ground: &Ground) -> [Steps<'_>; 5] {
    let no_scan = ground.addvc(0);
    [
        ("ADDVC, no point in front of the free record", no_scan),
        ("ADDVC, 20,000 points in front of it", ground.addvc(20_000)),
        ("READV, in the middle of a chain", ground.readv()),
        ("SINON, 40,000 points", ground.sinon()),
        ("FORMT", ground.formt()),
    ]
}

fn beside(ground: &Ground) -> [Beside<'_>; 2] {
    const SIDES: [Side; 2] = [store, model];
    let adds = |side| IN_FRONT.map(|points| ground.addvc_done(points).by(side));
    let sweeps = |side| IN_FRONT.map(|points| ground.rdnxt(points).by(side));
    [
        ("ADDVC", SIDES.map(|side| adds(side).into())),
        ("RDNXT", SIDES.map(|side| sweeps(side).into())),
    ]
}

/// What each stop takes, and how much more than the one before it.
fn print_steps((title, stops): &Steps) {
    println!("\n{title}\n\n| up to | store | more |\n|---|---|---|");
    let mut before = 0.0;
    for stop in stops {
        let taken = stop.taken();
        let (sum, more) = (grouped(taken), grouped(taken - before));
        println!("| {} | {sum} | {more} |", stop.what);
        before = taken;
    }
}

fn print_beside((title, [ours, other]): &Beside) {
    println!("\n{title}, by the live points in front of the record that it looks for\n");
    println!("| points | store | model |\n|---|---|---|");
    for ((points, ours), other) in IN_FRONT.into_iter().zip(ours).zip(other) {
        let [ours, other] = [ours, other].map(|stop| grouped(stop.taken()));
        println!("| {} | {ours} | {other} |", grouped(points.into()));
    }
}
