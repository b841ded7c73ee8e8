//! `yarugota_call_key_in_area` of the header does for a key inside the area what
//! `yarugota_call` does for the same key in a buffer of its own.

use std::collections::BTreeSet;
use std::ops::Range;
use std::path::Path;
use std::process::Command;

use yarugota::{PathName, Schema, SetName};
use yarugota_driver::{Answer, Batch, Driver};
use yarugota_model::reference::lk;
use yarugota_model::{Operation, Status};
use yarugota_support::{Call, Fixture};

/// Of every set here; so a key that lies in the area may be as long.
const AREA: usize = 40;

const SETS: [(&[u8; 4], &[u8; 8]); 4] = [
    (b"BOTL", b"BOTLLKPT"),
    (b"CASE", b"CASELKCP"),
    (b"PNTS", b"BOTLLKPT"),
    (b"PNTS", b"CASELKCP"),
];

/// Keys of 4 and of 16 bytes, the shortest and the longest there are, and points
/// on a path to each. Bottle and case 1 have two points, 2 are not there, 3 have
/// none.
fn fixture() -> Fixture {
    let [bottles, cases, points, _] = SETS.map(|(set, _)| SetName(*set));
    let paths = [b"BOTLLKPT", b"CASELKCP"].map(|path| PathName(*path));
    let schema = Schema::new()
        .master(bottles, 4, 36, 7)
        .master(cases, 16, 24, 7)
        .variable(points, 20, 9, &paths);
    let mut fixture = Fixture::formatted(&schema.block());
    for number in [1, 3] {
        let (bottle, case) = keys(number);
        fixture.on_set("ADD-M", "BOTL", 0, bottle.as_bytes(), &area(&bottle));
        fixture.on_set("ADD-M", "CASE", 0, case.as_bytes(), &area(&case));
    }
    let (bottle, case) = keys(1);
    for _ in 0..2 {
        let point = area(&(bottle.clone() + &case));
        fixture.on_path("ADDVC", "PNTS", 0, "BOTLLKPT", bottle.as_bytes(), &point);
    }
    fixture
}

fn keys(number: u8) -> (String, String) {
    (format!("B00{number}"), format!("CASE00000000000{number}"))
}

/// Keys, then other bytes.
fn area(keys: &str) -> Vec<u8> {
    keys.bytes().chain(0..).take(AREA).collect()
}

fn areas() -> Vec<Vec<u8>> {
    let mut areas = vec![vec![b' '; AREA]];
    for (bottle, case) in [1, 2, 3].map(keys) {
        areas.extend([area(&(bottle + &case)), area(&case)]);
    }
    areas
}

/// Keys of every length, from three places on.
fn parts() -> impl Iterator<Item = Range<usize>> {
    (0..=AREA).flat_map(|length| {
        let from = BTreeSet::from([0, 4, AREA - length]);
        let parts = from.into_iter().map(move |from| from..from + length);
        parts.filter(|part| part.end <= AREA)
    })
}

/// Calls, each with the place of its key in its area.
fn calls() -> Vec<(u32, Call)> {
    let operations = Operation::ALL.iter().map(|operation| operation.name());
    let mut calls = Vec::new();
    for op in operations.chain([b"NONE "]) {
        for (set, path) in SETS {
            for area in areas() {
                for reference in [1, lk([path[6], path[7]])] {
                    calls.extend(parts().map(|part| {
                        let call = Call {
                            op: *op,
                            set: *set,
                            reference,
                            path: *path,
                            key: area[part.clone()].to_vec(),
                            area: area.clone(),
                        };
                        (part.start as u32, call)
                    }));
                }
            }
        }
    }
    calls
}

/// The store's answers, each call on the same data base.
fn answers(fixture: &Fixture, calls: &[(u32, Call)], key_in_area: bool) -> Vec<Answer> {
    let mut batch = Batch::new();
    batch.schema(&fixture.schema);
    batch.base(&fixture.base);
    for (from, call) in calls {
        batch.base_again();
        if key_in_area {
            batch.key_in_area(*from);
        }
        let (op, set, path) = (&call.op, &call.set, &call.path);
        batch.call(op, set, call.reference, path, &call.key, &call.area);
    }
    let mut answers = Vec::new();
    Driver::start().make(&batch, |answer| match answer {
        Ok(answer) => answers.push(answer),
        Err(failure) => panic!("{failure}"),
    });
    answers
}

#[test]
fn it_is_as_good_as_one_elsewhere() {
    let (fixture, calls) = (fixture(), calls());
    let elsewhere = answers(&fixture, &calls, false);
    let in_area = answers(&fixture, &calls, true);
    assert_eq!(elsewhere.len(), calls.len());
    assert_eq!(in_area.len(), calls.len());
    let mut done = BTreeSet::new();
    let mut too_long = BTreeSet::new();
    for ((from, call), (one, other)) in calls.iter().zip(elsewhere.iter().zip(&in_area)) {
        assert_eq!(one, other, "key from byte {from} on: {call:?}");
        if one.status == Status::Done.number() {
            done.insert(call.op);
        }
        if one.status == Status::Klen.number() {
            too_long.insert(call.key.len());
        }
    }
    assert_eq!(done, Operation::ALL.map(|one| *one.name()).into());
    assert!(
        (17..=AREA).all(|length| too_long.contains(&length)),
        "{too_long:?}"
    );
}

/// By a program of its own, with a store that spoils the area first.
#[test]
fn it_is_copied_before_the_call() {
    let package = Path::new(env!("CARGO_MANIFEST_DIR"));
    let tools = package.join("../../tools");
    let program = Path::new(env!("CARGO_TARGET_TMPDIR")).join("key_in_area");
    let source = package.join("tests/key_in_area.c");
    let mut compiler = Command::new(tools.join("cc-x86"));
    let compiled = compiler.args([&program, &source]).status();
    assert!(compiled.is_ok_and(|status| status.success()));
    let run = Command::new(tools.join("run-x86")).arg(&program).status();
    assert!(run.is_ok_and(|status| status.success()));
}
