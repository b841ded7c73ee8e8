//! Which calls are made, and on what.

use yarugota::{Call, Operation, PathName, Reference, SetName};
use yarugota_support::schemas::{Draft, Master, Path, Variable};

const BOTTLES: SetName = SetName(*b"BOTL");
pub const POINTS: SetName = SetName(*b"PNTS");
const PATH: PathName = PathName::new(BOTTLES, *b"PT");

/// A bottle's name and note, a point's three coordinates.
const BOTTLE_DATA: u16 = 42;
const POINT_DATA: u16 = 12;
const KEY: usize = 8;
/// Calls that are timed together; of an add, which scans, fewer.
const SLICE: usize = 100;
const SHORT_SLICE: usize = 10;
/// Bytes of an area.
const BOTTLE: usize = KEY + BOTTLE_DATA as usize;
pub const POINT: usize = KEY + POINT_DATA as usize;

/// How much is stored. Each bottle has as many points as any other.
#[derive(Clone, Copy, Debug)]
pub struct Sizes {
    pub bottles: u32,
    pub points_each: u32,
}

impl Sizes {
    /// What the benchmark stores.
    pub const FULL: Sizes = Sizes {
        bottles: 500,
        points_each: 80,
    };

    pub fn points(self) -> u32 {
        self.bottles * self.points_each
    }

    /// A fifth of either set stays free.
    pub fn schema(self) -> Vec<u8> {
        let path = Path {
            letters: *b"PT",
            master: 0,
        };
        let draft = Draft {
            masters: vec![Master {
                name: BOTTLES.0,
                key_length: KEY as u8,
                data_length: BOTTLE_DATA,
                records: self.bottles * 5 / 4,
            }],
            variables: vec![Variable {
                name: POINTS.0,
                data_length: POINT_DATA,
                records: self.points() * 5 / 4,
                paths: vec![path],
            }],
        };
        draft.encode()
    }
}

/// One call of a phase.
pub struct Step<'a> {
    pub call: Call<'a>,
    /// The reference is not the call's own, but what the step before gave.
    pub goes_on: bool,
}

/// Calls that are measured together.
pub struct Phase<'a> {
    pub name: &'static str,
    pub steps: Vec<Step<'a>>,
    /// Bytes of each call's area.
    pub room: usize,
    /// How many of the calls find no such record.
    pub ends: usize,
    /// So many calls are timed together. Short slices keep what else the
    /// machine does out of the best times; longer ones meet more of it, so that
    /// the slower side would look slower than it is.
    pub slice: usize,
}

impl Phase<'_> {
    /// The areas of all steps, one behind the other: the key of each, then
    /// bytes that tell its number.
    pub fn areas(&self) -> Vec<u8> {
        let mut areas = Vec::with_capacity(self.steps.len() * self.room);
        for (at, step) in self.steps.iter().enumerate() {
            let number = (at as u32).to_be_bytes();
            let bytes = step.call.key.iter().chain(number.iter().cycle());
            areas.extend(bytes.take(self.room));
        }
        areas
    }
}

/// The keys of all bottles; the phases borrow them.
pub struct Workload {
    sizes: Sizes,
    keys: Vec<[u8; KEY]>,
}

impl Workload {
    pub fn new(sizes: Sizes) -> Workload {
        Workload {
            sizes,
            keys: (0..sizes.bottles).map(key).collect(),
        }
    }

    pub fn keys(&self) -> &[[u8; KEY]] {
        &self.keys
    }

    /// In the order in which they are made, from a formatted data base.
    pub fn phases(&self) -> Vec<Phase<'_>> {
        vec![
            self.bottles(),
            self.on_bottles("READM, every bottle", Operation::Readm),
            self.load(),
            self.chains("READV, every chain", Operation::Readv),
            self.chains("READR, every chain", Operation::Readr),
            self.sweep(),
            on_all("SINON", Operation::Sinon, 5),
            on_all("FORMT", Operation::Formt, 20),
        ]
    }

    pub fn bottles(&self) -> Phase<'_> {
        self.on_bottles("ADD-M, every bottle", Operation::AddM)
    }

    fn on_bottles(&self, name: &'static str, operation: Operation) -> Phase<'_> {
        let call = |key| Call {
            set: BOTTLES,
            key,
            ..Call::new(operation)
        };
        Phase {
            name,
            steps: self.keys.iter().map(|key| alone(call(key))).collect(),
            room: BOTTLE,
            ends: 0,
            slice: SLICE,
        }
    }

    /// One point for each bottle in turn, so that neighbours on a chain lie
    /// far apart.
    pub fn load(&self) -> Phase<'_> {
        let rounds = (0..self.sizes.points_each).flat_map(|_| &self.keys);
        Phase {
            name: "ADDVC, every point",
            steps: rounds
                .map(|key| alone(on_path(Operation::Addvc, key)))
                .collect(),
            room: POINT,
            ends: 0,
            slice: SHORT_SLICE,
        }
    }

    /// Each chain to its end.
    fn chains(&self, name: &'static str, operation: Operation) -> Phase<'_> {
        let chain = |key| {
            let calls = 0..=self.sizes.points_each;
            calls.map(move |at| Step {
                call: on_path(operation, key),
                goes_on: at != 0,
            })
        };
        Phase {
            name,
            steps: self.keys.iter().flat_map(|key| chain(key)).collect(),
            room: POINT,
            ends: self.keys.len(),
            slice: SLICE,
        }
    }

    /// All points, and the call that finds no more.
    fn sweep(&self) -> Phase<'_> {
        let step = |at| Step {
            call: Call {
                set: POINTS,
                ..Call::new(Operation::Rdnxt)
            },
            goes_on: at != 0,
        };
        Phase {
            name: "RDNXT, one sweep",
            steps: (0..=self.sizes.points()).map(step).collect(),
            room: POINT,
            ends: 1,
            slice: SLICE,
        }
    }
}

/// So many calls that speak of the whole data base.
fn on_all(name: &'static str, operation: Operation, calls: usize) -> Phase<'static> {
    let steps = (0..calls).map(|_| alone(Call::new(operation)));
    Phase {
        name,
        steps: steps.collect(),
        room: 0,
        ends: 0,
        slice: 1,
    }
}

fn alone(call: Call) -> Step {
    Step {
        call,
        goes_on: false,
    }
}

/// A call on the points of a bottle, from the path's beginning.
pub fn on_path(operation: Operation, key: &[u8]) -> Call<'_> {
    Call {
        set: POINTS,
        path: PATH,
        reference: Reference::link(*b"PT"),
        key,
        ..Call::new(operation)
    }
}

/// B0000000, B0000001, ..
fn key(number: u32) -> [u8; KEY] {
    let key = format!("B{number:07}");
    key.into_bytes()
        .try_into()
        .expect("seven digits are enough")
}
