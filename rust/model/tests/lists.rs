//! Random calls from formatted data bases: the model holds what plain lists
//! say, whichever way it is read.

use yarugota_model::{Operation, Status};
use yarugota_support::model;
use yarugota_support::runs::{run, Seen};

const RUNS: u64 = 600;
const STEPS: usize = 400;

#[test]
fn the_store_is_what_the_lists_say() {
    let mut seen = Seen::default();
    for seed in 0..RUNS {
        run(seed, STEPS, model, &mut seen);
    }
    every_call_was_done(&seen);
    refusals_were_seen(&seen);
    assert!(seen.strangers_moved > 500);
    assert!(seen.synonyms_added > 500);
    assert!(seen.synonyms_brought_home > 500);
}

fn every_call_was_done(seen: &Seen) {
    for operation in Operation::ALL {
        let times = seen.times(operation, Status::Done);
        assert!(times > 100, "{operation:?}: {times}");
    }
}

fn refusals_were_seen(seen: &Seen) {
    let expected = [
        (Operation::AddM, Status::Dupm),
        (Operation::AddM, Status::Full),
        (Operation::DelM, Status::Mrnf),
        (Operation::DelM, Status::Imdl),
        (Operation::Readm, Status::Mrnf),
        (Operation::Writm, Status::Mrnf),
        (Operation::Rdnxt, Status::Ivrp),
        (Operation::Readv, Status::Ivrp),
        (Operation::Readr, Status::Mrnf),
        (Operation::Readd, Status::Ivrp),
        (Operation::Writv, Status::Keys),
        (Operation::Addvc, Status::Mrnf),
        (Operation::Addvc, Status::Full),
        (Operation::Addvb, Status::Full),
        (Operation::Addva, Status::Full),
        (Operation::Delvd, Status::Ivrp),
    ];
    for (operation, status) in expected {
        let times = seen.times(operation, status);
        assert!(times > 20, "{operation:?} {status:?}: {times}");
    }
}
