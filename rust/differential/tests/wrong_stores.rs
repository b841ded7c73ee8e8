//! The tests find a wrong store out: the model passes as long as it makes no
//! mistake, and fails with each of those that it can be told to make.

use std::fs;

use yarugota_differential::suites::{Suite, ALL};
use yarugota_differential::{Difference, Direct, Store};
use yarugota_model::Fault;
use yarugota_support::model;
use yarugota_support::vectors::replay;

#[test]
fn a_right_one_passes() {
    for suite in ALL {
        let run = suite.on(Store::Model(None), 0..suite.seeds.min(5));
        run.unwrap_or_else(|difference| panic!("{}", difference.report()));
    }
}

#[test]
fn every_mistake_is_noticed() {
    // The quick ones first; any of them will do.
    let order = ["damage", "rules", "parameters", "faults", "damages", "runs"];
    let suites = order.map(|name| Suite::named(name).expect("a suite of that name"));
    let unnoticed = |fault: &&Fault| {
        let store = Store::Model(Some(**fault));
        let passes = |suite: &Suite| suite.on(store, 0..suite.seeds.min(15)).is_ok();
        suites.iter().all(passes)
    };
    let unnoticed: Vec<&Fault> = Fault::ALL.iter().filter(unnoticed).collect();
    assert!(unnoticed.is_empty(), "nothing noticed {unnoticed:?}");
}

/// The first difference that random runs find in a store with this mistake.
fn found(fault: Fault) -> Box<Difference> {
    let suite = Suite::named("runs").expect("a suite of that name");
    let run = suite.on(Store::Model(Some(fault)), 0..suite.seeds);
    run.err().expect("a mistake is noticed")
}

/// The driver notices what a store does beside its answer, and tells what it
/// was.
#[test]
fn what_is_done_beside_an_answer_is_told() {
    for (fault, told) in [
        (Fault::BesideTheArea, "bytes beside a buffer were changed"),
        (
            Fault::KeyWritten,
            "a buffer that should only be read was changed",
        ),
        (Fault::BroughtDown, "the driver has ended"),
    ] {
        let both = found(fault).both();
        assert!(both.contains(&format!("store: {told}")), "{both}");
    }
}

/// The file that a report names makes the call again: on the store, which
/// differs there too, and on the model, which does not.
#[test]
fn a_report_keeps_the_call() {
    let report = found(Fault::ZeroForLink).report();
    let (_, file) = report.rsplit_once("--case ").expect("a command for it");
    let text = fs::read_to_string(file).expect("the file it names");
    let mut store = Direct::new(Store::Model(Some(Fault::ZeroForLink)));
    let again = replay(&text, |call, schema, base| store.call(call, schema, base)).unwrap();
    assert_eq!((again.calls, again.differences.len()), (1, 1));
    assert_eq!(replay(&text, model).unwrap().differences, []);
}
