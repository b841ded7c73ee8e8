//! The proved store under load, in short: fixed seeds, and what the rounds must
//! have met.

use std::time::Duration;

use yarugota_differential::Store;
use yarugota_load::{Kind, Load};
use yarugota_model::{Operation, Status};

const DEADLINE: Duration = Duration::from_secs(600);

#[test]
fn fixed_seeds() {
    let run = Load::run(Store::chosen(), 0..120, 400, u64::MAX, DEADLINE);
    let (tally, summary) = run.unwrap_or_else(|failure| panic!("{failure}"));
    println!("{}", tally.report(&summary));
    for operation in Operation::ALL {
        assert!(summary.times(operation, Status::Done) > 0, "{operation:?}");
        assert!(summary.times(operation, Status::Schm) > 0, "{operation:?}");
        assert!(summary.times(operation, Status::Size) > 0, "{operation:?}");
    }
    for kind in Kind::ALL {
        for checks_true in [true, false] {
            let times = tally.damages.get(&(kind, checks_true));
            assert!(times.is_some_and(|&times| times > 100), "{kind:?}");
        }
    }
    assert!(tally.accepted > 100, "{}", tally.accepted);
    assert!(tally.refused > 1000, "{}", tally.refused);
    assert!(summary.times(Operation::AddM, Status::Full) > 100);
}
