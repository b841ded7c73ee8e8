//! The load test finds a wrong store out, and one that does not answer.

use std::time::Duration;

use yarugota_differential::Store;
use yarugota_load::Load;
use yarugota_model::Fault;

const DEADLINE: Duration = Duration::from_secs(600);

/// Whether the model gets through some rounds with this mistake.
fn passes(fault: Option<Fault>) -> bool {
    Load::run(Store::Model(fault), 0..120, 400, u64::MAX, DEADLINE).is_ok()
}

#[test]
fn a_right_one_passes() {
    assert!(passes(None));
}

#[test]
fn every_mistake_is_noticed() {
    let all = Fault::ALL.iter();
    let unnoticed: Vec<&Fault> = all.filter(|&&fault| passes(Some(fault))).collect();
    assert!(unnoticed.is_empty(), "nothing noticed {unnoticed:?}");
}

#[test]
fn a_store_that_does_not_answer_in_time_fails() {
    let run = Load::run(Store::Proved, 0..10_000, 400, u64::MAX, Duration::ZERO);
    let failure = run.err().expect("no time at all is too little");
    assert!(failure.contains("has not answered within"), "{failure}");
    assert!(failure.contains("rust/load/run --seed "), "{failure}");
}
