//! The benchmark on a small size: nothing here looks at a time.

use yarugota::Call;
use yarugota_benchmark::stops::Ground;
use yarugota_benchmark::{grouped, measure, model, store, Figures, Side, Sizes};

const SMALL: Sizes = Sizes {
    bottles: 8,
    points_each: 6,
};

#[test]
fn store_and_model_answer_alike() {
    let rows = measure(SMALL, 1, [store, model]).expect("no difference");
    let calls: Vec<_> = rows.iter().map(|row| (row.name, row.calls)).collect();
    let expected = [
        ("ADD-M, every bottle", 8),
        ("READM, every bottle", 8),
        ("ADDVC, every point", 48),
        ("READV, every chain", 56),
        ("READR, every chain", 56),
        ("RDNXT, one sweep", 49),
        ("SINON", 5),
        ("FORMT", 20),
    ];
    assert_eq!(calls, expected);
}

/// Answers another reference than the model.
fn wrong_answer(call: &Call, area: &mut [u8], schema: &[u8], base: &mut [u8]) -> (u32, u32) {
    let (status, reference) = model(call, area, schema, base);
    (status, reference ^ 1)
}

/// Leaves another area behind.
fn wrong_area(call: &Call, area: &mut [u8], schema: &[u8], base: &mut [u8]) -> (u32, u32) {
    let answer = model(call, area, schema, base);
    area[0] ^= 1;
    answer
}

/// Stores nothing.
fn wrong_base(call: &Call, area: &mut [u8], schema: &[u8], base: &mut [u8]) -> (u32, u32) {
    model(call, area, schema, &mut base.to_vec())
}

/// Refuses everything.
fn refuses(call: &Call, _: &mut [u8], _: &[u8], _: &mut [u8]) -> (u32, u32) {
    (16, call.reference.bits())
}

/// Gives record 1 again and again.
fn runs_in_a_circle(_: &Call, _: &mut [u8], _: &[u8], _: &mut [u8]) -> (u32, u32) {
    (0, 1)
}

#[test]
fn what_is_wrong_ends_the_run() {
    let wrong: [([Side; 2], &str); 6] = [
        (
            [wrong_answer, model],
            "ADD-M, every bottle: the answers differ",
        ),
        (
            [model, wrong_answer],
            "ADD-M, every bottle: the answers differ",
        ),
        ([wrong_area, model], "ADD-M, every bottle: the areas differ"),
        (
            [wrong_base, model],
            "ADD-M, every bottle: the data bases differ",
        ),
        (
            [refuses, refuses],
            "ADD-M, every bottle: a call was refused",
        ),
        (
            [runs_in_a_circle, runs_in_a_circle],
            "READV, every chain: a chain or the sweep does not end where it should",
        ),
    ];
    for (sides, why) in wrong {
        assert_eq!(measure(SMALL, 1, sides).err().as_deref(), Some(why));
    }
}

/// A round holds that each call is answered with the status at which it should
/// stop.
#[test]
fn the_stops_are_where_they_should_be() {
    let ground = Ground::new(SMALL);
    let all = [
        ground.addvc(0),
        ground.addvc(20),
        ground.readv(),
        ground.sinon(),
        ground.formt(),
        vec![ground.rdnxt(0), ground.rdnxt(20)],
    ];
    for stop in all.into_iter().flatten() {
        stop.by(model).round(&ground.schema);
    }
}

#[test]
fn figures_are_taken_slice_by_slice() {
    let rounds = [vec![5.0, 20.0], vec![4.0, 60.0], vec![9.0, 40.0]];
    let (best, median) = (12.0, 22.5);
    assert_eq!(Figures::of_slices(&rounds, 2), Figures { best, median });
}

#[test]
fn numbers_are_grouped() {
    let numbers = [0.4, 999.6, 1_234_567.0, -12_345.0].map(grouped);
    assert_eq!(numbers, ["0", "1,000", "1,234,567", "-12,345"]);
}
