//! Rounds of calls.

use std::ops::Range;
use std::time::Duration;

use yarugota_differential::{calls_on, Beside, Difference, Store, Summary};
use yarugota_driver::Failure;
use yarugota_model::{Operation, Schema, Status};
use yarugota_support::calls::CallMaker;
use yarugota_support::schemas::Draft;
use yarugota_support::{schemas, Answered, Call, Random, Trace};

use crate::faults::{damaged, other_length, rubbish_schema};
use crate::watch::Watch;
use crate::Tally;

/// How calls go to the store.
#[derive(Clone, Copy, PartialEq, Eq)]
enum Pace {
    /// Many at once.
    Batches,
    /// Each by itself, so that it is clear which one brings the store down.
    Single,
}

/// A store under load, beside the model.
pub struct Load {
    beside: Beside,
    /// Of a store in a process of its own.
    watch: Option<Watch>,
    pace: Pace,
    tally: Tally,
}

/// One round's schema and data base.
struct Life<'a> {
    bytes: &'a [u8],
    schema: &'a Schema,
    base: Vec<u8>,
}

impl Load {
    fn new(store: Store, pace: Pace, deadline: Duration) -> Load {
        let beside = Beside::new(store);
        let watch = beside.ender().map(|ender| Watch::new(ender, deadline));
        Load {
            beside,
            watch,
            pace,
            tally: Tally::default(),
        }
    }

    /// Rounds of these seeds, so many steps each, until so many calls are made
    /// or the store fails. A failure is told with a command that makes it again.
    pub fn run(
        store: Store,
        seeds: Range<u64>,
        steps: u64,
        calls: u64,
        deadline: Duration,
    ) -> Result<(Tally, Summary), String> {
        let mut load = Load::new(store, Pace::Batches, deadline);
        for seed in seeds {
            load.round(seed, steps);
            if load.beside.differs() || load.beside.calls() >= calls {
                break;
            }
        }
        load.finish().map_err(|(difference, late)| {
            let told = match difference.answer {
                Err(Failure::Ended(_)) => {
                    one_by_one(store, difference.origin.seed, steps, deadline)
                }
                _ => None,
            };
            let (difference, late) = told.unwrap_or((difference, late));
            tell(&difference, late, steps, deadline)
        })
    }

    /// The life of one data base.
    fn round(&mut self, seed: u64, steps: u64) {
        self.beside.begin("load", seed);
        self.tally.rounds += 1;
        let mut trace = Trace::new(seed);
        let mut random = Random::new(seed);
        let bytes = draft(&mut random).encode();
        let schema = Schema::decode(&bytes).expect("a schema that keeps every rule");
        let maker = CallMaker::new(&mut random, &schema);
        let mut life = Life {
            bytes: &bytes,
            schema: &schema,
            base: random.bytes(schema.base_length()),
        };
        self.beside.schema(&bytes);
        self.live(&mut life, &Call::plain(Operation::Formt.name()));
        for step in 1..=steps {
            trace.step = step as usize;
            if self.beside.differs() {
                return;
            }
            let call = match random.once_in(6) {
                true => maker.faulty_up_to(4, &mut random, &life.base),
                false => maker.likely(&mut random, &life.base),
            };
            self.faults(&mut random, &life, &maker, &call);
            self.live(&mut life, &call);
        }
        self.live(&mut life, &Call::plain(Operation::Sinon.name()));
    }

    /// A call on the round's own data base, which is sound and stays so.
    fn live(&mut self, life: &mut Life, call: &Call) {
        self.beside.set_base(&life.base);
        let answered = self.call(call);
        assert_ne!(answered.status, Status::Damg, "undamaged: {call:?}");
        life.base.copy_from_slice(self.beside.base());
    }

    /// What is done before a call, on copies.
    fn faults(&mut self, random: &mut Random, life: &Life, maker: &CallMaker, call: &Call) {
        match random.below(16) {
            0 => {
                self.tally.other_lengths += 1;
                self.beside.set_base(&other_length(random, &life.base));
                self.call(call);
            }
            1 => {
                self.tally.rubbish_schemas += 1;
                self.beside.schema(&rubbish_schema(random, life.bytes));
                self.beside.set_base(&life.base);
                self.call(call);
                self.beside.schema(life.bytes);
            }
            2..=4 => {}
            _ => self.damage(random, life, maker, call),
        }
    }

    /// SINON and the call on a damaged copy. Now and then there are more calls:
    /// each on what the one before has left, or calls that fit what the data
    /// base held, each on the same copy.
    fn damage(&mut self, random: &mut Random, life: &Life, maker: &CallMaker, call: &Call) {
        let checks_true = !random.once_in(3);
        let (copy, kinds) = damaged(random, life.schema, &life.base, checks_true);
        self.tally.damage(&kinds, checks_true);
        self.beside.set_base(&copy);
        match self.call(&Call::plain(Operation::Sinon.name())).status {
            Status::Damg => self.tally.refused += 1,
            _ => self.tally.accepted += 1,
        }
        self.call(call);
        if random.once_in(4) {
            for _ in 0..4 {
                let call = maker.likely(random, self.beside.base());
                self.call(&call);
            }
            self.call(&Call::plain(Operation::Sinon.name()));
        }
        if random.once_in(8) {
            let fitting = calls_on(life.schema, &life.base);
            for _ in 0..16 {
                self.beside.base_again();
                self.call(random.pick(&fitting));
            }
        }
    }

    /// Makes a call, and holds of the model's answer, which the store's must
    /// equal, that a refused call changes nothing.
    fn call(&mut self, call: &Call) -> Answered {
        let before = self.beside.base().to_vec();
        let answered = self.beside.call(call);
        if answered.status != Status::Done {
            assert_eq!(answered.reference, call.reference, "refused: {call:?}");
            assert_eq!(answered.area, call.area, "refused: {call:?}");
            assert!(self.beside.base() == before, "refused: {call:?}");
        }
        if self.pace == Pace::Single {
            self.beside.compare();
        }
        self.watch.iter().for_each(Watch::alive);
        answered
    }

    /// What was counted, or the first difference and whether the store was late.
    fn finish(self) -> Result<(Tally, Summary), (Box<Difference>, bool)> {
        let finished = self.beside.finish();
        let late = self.watch.is_some_and(Watch::ended);
        match finished {
            Ok(summary) => Ok((self.tally, summary)),
            Err(difference) => Err((difference, late)),
        }
    }
}

/// The round in which the store was brought down, once more, to tell the very
/// call. `None` where it does not happen again.
fn one_by_one(
    store: Store,
    seed: u64,
    steps: u64,
    deadline: Duration,
) -> Option<(Box<Difference>, bool)> {
    let mut load = Load::new(store, Pace::Single, deadline);
    load.round(seed, steps);
    load.finish().err()
}

fn tell(difference: &Difference, late: bool, steps: u64, deadline: Duration) -> String {
    let (seed, step) = (difference.origin.seed, difference.origin.step);
    let what = match late {
        true => format!("the store has not answered within {} s", deadline.as_secs()),
        false => "the store and the model differ".to_string(),
    };
    format!(
        "{what}: seed {seed}, call {step} of the round\n{}\nagain:\n  rust/load/run --seed {seed} --steps {steps} --calls 1\n{}",
        difference.both(),
        difference.write_down()
    )
}

/// Mostly few records a set, so that sets fill up; now and then more.
fn draft(random: &mut Random) -> Draft {
    const MOST_BLOCKS: usize = 48;
    let small = schemas::small(random);
    if !random.once_in(4) {
        return small;
    }
    let mut larger = small.clone();
    let times = random.between(2, 12) as u32;
    let masters = larger.masters.iter_mut().map(|set| &mut set.records);
    let variables = larger.variables.iter_mut().map(|set| &mut set.records);
    masters
        .chain(variables)
        .for_each(|records| *records *= times);
    match larger.blocks() <= MOST_BLOCKS {
        true => larger,
        false => small,
    }
}
