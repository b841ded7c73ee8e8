//! Which calls are made.

use std::ops::Range;

use yarugota_driver::Answer;
use yarugota_model::{seal, Schema, Status, BLOCK};
use yarugota_support::calls::CallMaker;
use yarugota_support::damage::{damage, rubbish};
use yarugota_support::runs::run_reading_every;
use yarugota_support::{rules, schemas, Call, Random};

use crate::beside::modelled;
use crate::targets::{calls_on, stores};
use crate::{damages, largest, parameters, Beside, Difference, Store, Summary};

/// A way to make calls.
#[derive(Clone, Copy)]
pub struct Suite {
    pub name: &'static str,
    /// The gate takes so many seeds, from 0 on; 1 where a seed makes no
    /// difference.
    pub seeds: u64,
    run: fn(&mut Beside, u64),
}

pub const ALL: [Suite; 9] = [
    suite("rules", 1, every_rule),
    suite("sizes", 1, every_size),
    suite("parameters", 1, |beside, _| parameters::every(beside)),
    suite("damages", 1, every_damage),
    suite("largest", 1, |beside, _| largest::every(beside)),
    suite("schemas", 40, schema_bytes),
    suite("faults", 60, several_faults),
    suite("damage", 60, random_damage),
    suite("runs", 60, runs_from_formatted),
];

const fn suite(name: &'static str, seeds: u64, run: fn(&mut Beside, u64)) -> Suite {
    Suite { name, seeds, run }
}

impl Suite {
    pub fn named(name: &str) -> Option<Suite> {
        ALL.into_iter().find(|suite| suite.name == name)
    }

    /// Whether it makes other calls with another seed.
    pub fn seeded(&self) -> bool {
        self.seeds > 1
    }

    /// Makes the calls of one seed, unless the store has already differed.
    pub fn run(&self, beside: &mut Beside, seed: u64) {
        if !beside.differs() {
            beside.begin(self.name, seed);
            (self.run)(beside, seed);
        }
    }

    /// Makes the calls of these seeds on a store.
    pub fn on(&self, store: Store, seeds: Range<u64>) -> Result<Summary, Box<Difference>> {
        let mut beside = Beside::new(store);
        for seed in seeds {
            self.run(&mut beside, seed);
        }
        beside.finish()
    }
}

/// A schema's base length, or a block's for a schema that breaks a rule.
fn base_length(schema: &[u8]) -> usize {
    Schema::decode(schema).map_or(BLOCK, |schema| schema.base_length())
}

/// Schemas that break exactly one rule, with a data base that would fit.
fn every_rule(beside: &mut Beside, _seed: u64) {
    let plain = rules::plain().encode();
    let base = vec![0xEE; base_length(&plain)];
    for row in rules::broken() {
        beside.schema(&row.schema);
        beside.set_base(&base);
        for op in [b"FORMT", b"SINON", b"RDNXT", b"NONE "] {
            beside.call(&Call::plain(op));
        }
    }
}

/// Schemas that only just keep the rules, with data bases of the right length
/// and of others.
fn every_size(beside: &mut Beside, _seed: u64) {
    for (_, draft) in rules::kept() {
        let schema = draft.encode();
        let length = base_length(&schema);
        beside.schema(&schema);
        for length in [0, length - BLOCK, length - 1, length + 1, length + BLOCK] {
            beside.set_base(&vec![0; length]);
            beside.call(&Call::plain(b"FORMT"));
            beside.call(&Call::plain(b"NONE "));
        }
        beside.set_base(&vec![0xEE; length]);
        beside.call(&Call::plain(b"FORMT"));
        // SINON of the largest sets takes long.
        if length <= 64 * BLOCK {
            beside.call(&Call::plain(b"SINON"));
        }
    }
}

/// Every single damage on four stores, and on each the calls that fit what the
/// store held: all those to which the damage makes a difference, and one in
/// eight of the others.
fn every_damage(beside: &mut Beside, _seed: u64) {
    for fixture in stores() {
        let answer = |call: &Call, base: &[u8]| modelled(None, call, &fixture.schema, base).1;
        let calls = calls_on(&fixture.decoded, &fixture.base);
        let undamaged: Vec<Answer> = calls
            .iter()
            .map(|call| answer(call, &fixture.base))
            .collect();
        beside.schema(&fixture.schema);
        let mut turn = 0;
        damages::every(&fixture.decoded, &fixture.base, |damaged| {
            if beside.differs() {
                return;
            }
            turn += 1;
            beside.set_base(damaged);
            for (number, call) in calls.iter().enumerate() {
                let by_turn = (turn + number) % 8 == 0;
                if !by_turn && answer(call, damaged) == undamaged[number] {
                    continue;
                }
                if beside.call(call).status == Status::Done {
                    beside.base_again();
                }
            }
        });
    }
}

/// Schemas with a byte or two changed, the check mostly set right again.
fn schema_bytes(beside: &mut Beside, seed: u64) {
    const TRIES: usize = 120;
    let mut random = Random::new(seed);
    let kept = schemas::small(&mut random).encode();
    let mut base = vec![0; base_length(&kept)];
    rubbish(&mut random, &mut base);
    let used = 16 + 48 * usize::from(kept[1] + kept[2]);
    beside.schema(&kept);
    beside.set_base(&base);
    for _ in 0..TRIES {
        let mut schema = kept.clone();
        for _ in 0..random.between(1, 2) {
            let at = match random.once_in(8) {
                true => random.below(BLOCK),
                false => random.below(used),
            };
            schema[at] = match random.below(4) {
                0 => random.byte(),
                1 => schema[random.below(used)],
                2 => schema[at].wrapping_add(1),
                _ => *random.pick(&[0, 1, 2, 3, 4, 5, 8, b'A', b'Z', b'0', b'9', b' ', 0xFF]),
            };
        }
        if !random.once_in(16) {
            seal(&mut schema, 0);
        }
        beside.schema(&schema);
        beside.call(&Call::plain(b"FORMT"));
        beside.base_again();
    }
}

/// Calls with up to four parameters spoilt, on a store that is being filled.
fn several_faults(beside: &mut Beside, seed: u64) {
    const STEPS: usize = 400;
    let mut random = Random::new(seed);
    let bytes = schemas::small(&mut random).encode();
    let schema = Schema::decode(&bytes).expect("a schema that keeps every rule");
    formatted(beside, &bytes, &schema);
    let maker = CallMaker::new(&mut random, &schema);
    for _ in 0..STEPS {
        let call = match random.once_in(3) {
            true => maker.likely(&mut random, beside.base()),
            false => maker.faulty_up_to(4, &mut random, beside.base()),
        };
        beside.call(&call);
    }
}

fn formatted(beside: &mut Beside, bytes: &[u8], schema: &Schema) {
    beside.schema(bytes);
    beside.set_base(&vec![0; schema.base_length()]);
    beside.call(&Call::plain(b"FORMT"));
}

/// A store is filled and then damaged in one to three places, again and again.
/// On each damaged data base some calls follow each other, and some more each
/// start from it afresh.
fn random_damage(beside: &mut Beside, seed: u64) {
    const CALLS_UP: usize = 80;
    const ROUNDS: usize = 40;
    const FOLLOWING: usize = 5;
    const AFRESH: usize = 12;
    let mut random = Random::new(seed);
    let bytes = schemas::small(&mut random).encode();
    let schema = Schema::decode(&bytes).expect("a schema that keeps every rule");
    formatted(beside, &bytes, &schema);
    let maker = CallMaker::new(&mut random, &schema);
    for _ in 0..CALLS_UP {
        let call = maker.likely(&mut random, beside.base());
        beside.call(&call);
    }
    let sound = beside.base().to_vec();
    let fitting = calls_on(&schema, &sound);
    for _ in 0..ROUNDS {
        let mut damaged = sound.clone();
        for _ in 0..random.between(1, 3) {
            damage(&mut random, &schema, &mut damaged);
        }
        beside.set_base(&damaged);
        beside.call(&Call::plain(b"SINON"));
        for _ in 0..FOLLOWING {
            let call = match random.once_in(8) {
                true => maker.faulty(&mut random, beside.base()),
                false => maker.likely(&mut random, beside.base()),
            };
            beside.call(&call);
        }
        for _ in 0..AFRESH {
            beside.base_again();
            beside.call(random.pick(&fitting));
        }
    }
}

/// Calls from a formatted data base beside plain lists. After each call the
/// whole store is read through by calls, forward, backward, by number and in
/// sweeps, and those calls are compared like all others.
fn runs_from_formatted(beside: &mut Beside, seed: u64) {
    const STEPS: usize = 150;
    let mut seen = std::mem::take(&mut beside.summary.seen);
    run_reading_every(
        1,
        seed,
        STEPS,
        |call, schema, base| beside.as_store(call, schema, base),
        &mut seen,
    );
    beside.summary.seen = seen;
}
