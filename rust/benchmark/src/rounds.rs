//! Rounds: every phase by both sides, compared and timed.

use std::time::Instant;

use yarugota::Reference;
use yarugota_model::Schema;

use crate::{Figures, Phase, Side, Sizes, Workload};

/// A phase's times.
pub struct Row {
    pub name: &'static str,
    pub calls: usize,
    /// Of either side, in the order in which they were given.
    pub times: [Figures; 2],
}

/// Makes all phases so many times by both sides, after a round that is not
/// counted. Tells the first difference between the sides, if there is one.
pub fn measure(sizes: Sizes, rounds: usize, sides: [Side; 2]) -> Result<Vec<Row>, String> {
    let schema = sizes.schema();
    let layout = Schema::decode(&schema).expect("a schema that keeps every rule");
    let workload = Workload::new(sizes);
    let phases = workload.phases();
    let mut times = vec![[vec![], vec![]]; phases.len()];
    let mut base = vec![0; layout.base_length()];
    for round in 0..=rounds {
        yarugota_model::format(&mut base);
        for (phase, times) in phases.iter().zip(&mut times) {
            let made = beside(phase, sides, round % 2, &schema, &mut base)?;
            if round != 0 {
                let [one, other] = made;
                times[0].push(one);
                times[1].push(other);
            }
        }
    }
    let rows = phases.iter().zip(times).map(|(phase, times)| Row {
        name: phase.name,
        calls: phase.steps.len(),
        times: times.map(|rounds| Figures::of_slices(&rounds, phase.steps.len())),
    });
    Ok(rows.collect())
}

/// One phase by both sides, each from the same data base, copied into the same
/// buffer just before; `first` says which side begins. Gives the slices' times
/// in the order of the sides.
fn beside(
    phase: &Phase,
    sides: [Side; 2],
    first: usize,
    schema: &[u8],
    base: &mut [u8],
) -> Result<[Vec<f64>; 2], String> {
    let before = base.to_vec();
    let mut by = |side: Side| {
        base.copy_from_slice(&before);
        let made = make(phase, side, schema, base);
        (made, base.to_vec())
    };
    let (one, one_left) = by(sides[first]);
    let (other, other_left) = by(sides[1 - first]);
    let wrong = difference(phase, &one, &other).or_else(|| {
        let same = one_left == other_left;
        (!same).then_some("the data bases differ")
    });
    if let Some(wrong) = wrong {
        return Err(format!("{}: {wrong}", phase.name));
    }
    Ok(match first {
        0 => [one.slices, other.slices],
        _ => [other.slices, one.slices],
    })
}

/// What is wrong with the answers, if anything.
fn difference(phase: &Phase, one: &Made, other: &Made) -> Option<&'static str> {
    let end = (0, Reference::END.bits());
    let ends = one.answers.iter().filter(|&&answer| answer == end);
    if one.answers != other.answers {
        Some("the answers differ")
    } else if one.areas != other.areas {
        Some("the areas differ")
    } else if one.answers.iter().any(|&(status, _)| status != 0) {
        Some("a call was refused")
    } else if ends.count() != phase.ends {
        Some("a chain or the sweep does not end where it should")
    } else {
        None
    }
}

/// A data base with all bottles and points in it, by the model.
pub fn fill(workload: &Workload, schema: &[u8]) -> Vec<u8> {
    let layout = Schema::decode(schema).expect("a schema that keeps every rule");
    let mut base = vec![0; layout.base_length()];
    yarugota_model::format(&mut base);
    make(&workload.bottles(), crate::model, schema, &mut base);
    make(&workload.load(), crate::model, schema, &mut base);
    base
}

/// What a phase came to by one side.
struct Made {
    /// Nanoseconds of each slice.
    slices: Vec<f64>,
    answers: Vec<(u32, u32)>,
    areas: Vec<u8>,
}

/// Between two looks at the clock there are only the calls of a slice, the
/// references handed on, and the answers noted in room that is there already.
fn make(phase: &Phase, side: Side, schema: &[u8], base: &mut [u8]) -> Made {
    let mut areas = phase.areas();
    let mut answers = vec![(0, 0); phase.steps.len()];
    let mut slices = Vec::new();
    let mut given = Reference::number(0);
    let noted = answers.chunks_mut(phase.slice);
    for (number, (steps, noted)) in phase.steps.chunks(phase.slice).zip(noted).enumerate() {
        let areas = &mut areas[number * phase.slice * phase.room..];
        let began = Instant::now();
        for (at, step) in steps.iter().enumerate() {
            let mut call = step.call;
            if step.goes_on {
                call.reference = given;
            }
            let area = &mut areas[at * phase.room..(at + 1) * phase.room];
            noted[at] = side(&call, area, schema, base);
            given = Reference::from_bits(noted[at].1);
        }
        slices.push(began.elapsed().as_nanos() as f64);
    }
    Made {
        slices,
        answers,
        areas,
    }
}
