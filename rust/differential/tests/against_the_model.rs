//! The proved store beside the model, with fixed seeds. Every test says which
//! suite it runs, and that the suite has met what it is there for.

use yarugota_differential::suites::Suite;
use yarugota_differential::{Store, Summary};
use yarugota_model::{Operation, Status};

/// Runs a suite with the gate's seeds and panics at the first difference.
fn run(name: &str) -> Summary {
    let suite = Suite::named(name).expect("a suite of that name");
    let run = suite.on(Store::chosen(), 0..suite.seeds);
    let summary = run.unwrap_or_else(|difference| panic!("{}", difference.report()));
    println!("{name}: {} calls", summary.calls);
    summary
}

#[test]
fn schemas_that_break_one_rule() {
    let summary = run("rules");
    assert_eq!(
        summary.times(Operation::Formt, Status::Schm) * 4,
        summary.calls
    );
}

#[test]
fn schemas_that_only_just_keep_the_rules() {
    let summary = run("sizes");
    assert!(summary.times(Operation::Formt, Status::Size) > 50);
    assert!(summary.times(Operation::Formt, Status::Done) > 10);
}

#[test]
fn schemas_with_bytes_changed() {
    let summary = run("schemas");
    assert!(summary.times(Operation::Formt, Status::Schm) > 1_000);
    assert!(summary.times(Operation::Formt, Status::Done) > 200);
}

#[test]
fn bad_parameters_alone_and_together() {
    let summary = run("parameters");
    for status in [
        Status::Schm,
        Status::Size,
        Status::Fntf,
        Status::Kind,
        Status::Path,
        Status::Area,
        Status::Klen,
        Status::Bctl,
        Status::Keys,
        Status::Ivrp,
        Status::Mrnf,
        Status::Done,
    ] {
        assert!(summary.times(Operation::Addvb, status) > 0, "{status:?}");
    }
}

#[test]
fn several_faults_at_once() {
    let summary = run("faults");
    for operation in Operation::ALL {
        assert!(summary.times(operation, Status::Done) > 0, "{operation:?}");
    }
}

#[test]
fn every_single_damage() {
    let summary = run("damages");
    met_damage(&summary);
}

#[test]
fn random_damage() {
    let summary = run("damage");
    met_damage(&summary);
}

/// Every call that can meet damage has met it.
fn met_damage(summary: &Summary) {
    for operation in Operation::ALL {
        let never = matches!(
            operation,
            Operation::Formt | Operation::Rqloc | Operation::Rdnxt
        );
        let met = summary.times(operation, Status::Damg) > 0;
        assert_eq!(met, !never, "{operation:?}");
    }
}

#[test]
fn the_largest_data_base() {
    let summary = run("largest");
    assert!(summary.times(Operation::Addvc, Status::Done) >= 12);
}

#[test]
fn runs_from_a_formatted_data_base() {
    let summary = run("runs");
    let seen = &summary.seen;
    assert!(seen.strangers_moved > 20, "{}", seen.strangers_moved);
    assert!(seen.synonyms_added > 20, "{}", seen.synonyms_added);
    assert!(
        seen.synonyms_brought_home > 10,
        "{}",
        seen.synonyms_brought_home
    );
    assert!(summary.times(Operation::AddM, Status::Full) > 10);
    assert!(summary.times(Operation::Addvc, Status::Full) > 5);
}
