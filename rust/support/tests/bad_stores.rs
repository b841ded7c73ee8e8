//! Stores that are wrong are found out by random runs, each by what is wrong
//! with it.

use yarugota_model::reference::END;
use yarugota_model::{DataBase, Fault, Operation, Schema, Status, BLOCK};
use yarugota_support::damage::reseal;
use yarugota_support::runs::{run, Seen};
use yarugota_support::{model, model_with, Call};

fn runs(mut store: impl FnMut(&mut Call, &[u8], &mut [u8]) -> (Status, u32)) {
    let mut seen = Seen::default();
    for seed in 0..40 {
        run(seed, 200, &mut store, &mut seen);
    }
}

fn operation(call: &Call) -> Option<Operation> {
    Operation::named(&call.op)
}

#[test]
fn the_model_passes() {
    runs(model);
}

#[test]
#[should_panic(expected = "failed: FORMT")]
fn refuses_everything() {
    runs(|call, _, _| (Status::Damg, call.reference));
}

#[test]
#[should_panic(expected = "failed: status of Call")]
fn always_says_done() {
    runs(|call, _, _| (Status::Done, call.reference));
}

#[test]
#[should_panic(expected = "failed: masters")]
fn stores_nothing() {
    runs(|call, schema, base| {
        let before = base.to_vec();
        let answer = model(call, schema, base);
        if operation(call) != Some(Operation::Formt) {
            base.copy_from_slice(&before);
        }
        answer
    });
}

/// Links the new record on its first path, and leaves every other chain as it
/// was. The chains alone read well forward on the first path.
#[test]
#[should_panic(expected = "failed: the store is sound")]
fn links_the_first_path_only() {
    runs(|call, schema, base| {
        let before = base.to_vec();
        let answer = model(call, schema, base);
        let added = operation(call).is_some_and(Operation::is_add);
        if added && answer.0 == Status::Done {
            unlink_other_paths(call, schema, &before, base);
        }
        answer
    });
}

/// Puts back what the masters said on all paths but a set's first.
fn unlink_other_paths(call: &Call, schema: &[u8], before: &[u8], base: &mut [u8]) {
    let schema = Schema::decode(schema).unwrap();
    let set = schema.entry_named(&call.set).unwrap();
    for path in schema.entries[set].paths.iter().skip(1) {
        let masters = DataBase {
            schema: &schema,
            bytes: before,
        };
        for (record, _) in masters.set(path.master).records() {
            let offset = schema.record_offset(path.master, record).unwrap();
            let at = offset + schema.entries[path.master].first_at(path.linkage);
            base[at..at + 8].copy_from_slice(&before[at..at + 8]);
            reseal(base, offset / BLOCK);
        }
    }
}

#[test]
#[should_panic(expected = "failed: area of refused Call")]
fn changes_a_refused_area() {
    runs(|call, schema, base| {
        let answer = model(call, schema, base);
        if answer.0 == Status::Mrnf {
            call.area.fill(0);
        }
        answer
    });
}

#[test]
#[should_panic(expected = "failed: reference of Call")]
fn returns_0_after_deleting_the_first() {
    runs(|call, schema, base| model_with(Some(Fault::ZeroForLink), call, schema, base));
}

/// Answers as the model does, and leaves the data base as it was.
fn forgets(forgotten: Operation) {
    runs(|call, schema, base| {
        let before = base.to_vec();
        let answer = model(call, schema, base);
        if operation(call) == Some(forgotten) {
            base.copy_from_slice(&before);
        }
        answer
    });
}

#[test]
#[should_panic(expected = "failed: masters")]
fn forgets_what_is_written_into_a_master() {
    forgets(Operation::Writm);
}

#[test]
#[should_panic(expected = "failed: area of Call")]
fn forgets_what_is_written_into_a_record() {
    forgets(Operation::Writv);
}

/// Spoils the area of a read that is done.
fn misreads(misread: Operation) {
    runs(|call, schema, base| {
        let answer = model(call, schema, base);
        if operation(call) == Some(misread) && answer.0 == Status::Done && answer.1 != END {
            call.area[0] ^= 1;
        }
        answer
    });
}

#[test]
#[should_panic(expected = "failed: READM\n")]
fn misreads_a_master() {
    misreads(Operation::Readm);
}

#[test]
#[should_panic(expected = "failed: READD\n")]
fn misreads_by_number() {
    misreads(Operation::Readd);
}

#[test]
#[should_panic(expected = "failed: chain forward")]
fn misreads_forward() {
    misreads(Operation::Readv);
}

#[test]
#[should_panic(expected = "failed: chain backward")]
fn misreads_backward() {
    misreads(Operation::Readr);
}

#[test]
#[should_panic(expected = "failed: READM of a swept master")]
fn misreads_in_sweeps() {
    misreads(Operation::Rdnxt);
}
