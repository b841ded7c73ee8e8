//! Calls made on the model at once, and on the store in batches.

use std::collections::BTreeMap;
use std::rc::Rc;

use yarugota_driver::{Answer, Batch, Change, Ender, Failure};
use yarugota_model::{Fault, Operation, Status};
use yarugota_support::runs::Seen;
use yarugota_support::{model_with, Answered, Call};

use crate::store::Called;
use crate::{Difference, Store};

/// A batch goes over when it has so many events or bytes.
const MOST_EVENTS: usize = 4096;
const MOST_BYTES: usize = 1 << 22;

/// What was done so far.
#[derive(Default)]
pub struct Summary {
    pub calls: u64,
    pub statuses: BTreeMap<(Operation, Status), u64>,
    /// What random runs have met.
    pub seen: Seen,
}

impl Summary {
    /// How often an operation had to answer this.
    pub fn times(&self, operation: Operation, status: Status) -> u64 {
        let count = self.statuses.get(&(operation, status));
        count.copied().unwrap_or(0)
    }
}

/// A store beside the model.
///
/// Calls go to the model first, which says what the store should answer and
/// change. The store makes them later, a batch at a time. After the first
/// difference no more calls go to the store, and whoever makes them should
/// look at [`Beside::differs`] and stop.
pub struct Beside {
    store: Called,
    /// As the model's calls have left it.
    now: State,
    /// The batch: what has not gone to the store yet, and how many bytes go over.
    events: Vec<Event>,
    bytes: usize,
    /// Where the batch starts.
    start: State,
    pub(crate) summary: Summary,
    difference: Option<Box<Difference>>,
    /// Of the last call.
    origin: Origin,
}

enum Event {
    Schema(Rc<[u8]>),
    Base(Rc<[u8]>),
    Again,
    Made {
        call: Call,
        expected: Answer,
        origin: Origin,
    },
}

/// Where a call comes from.
#[derive(Clone, Copy, Debug, Default, PartialEq, Eq)]
pub struct Origin {
    pub suite: &'static str,
    pub seed: u64,
    /// Counted from 1.
    pub step: u64,
}

/// A schema, and a data base as it was given and as it is.
#[derive(Clone, Default)]
struct State {
    schema: Rc<[u8]>,
    given: Rc<[u8]>,
    base: Vec<u8>,
}

impl State {
    /// Goes on by an event, and where that is a call by what the model changes.
    fn follow(&mut self, event: &Event) {
        match event {
            Event::Schema(bytes) => self.schema = bytes.clone(),
            Event::Base(bytes) => {
                self.given = bytes.clone();
                self.base = bytes.to_vec();
            }
            Event::Again => self.base.copy_from_slice(&self.given),
            Event::Made { expected, .. } => {
                let changes = expected.changes.iter();
                changes.for_each(|change| change.apply(&mut self.base));
            }
        }
    }
}

/// What the model answers to a call, and changes; with a mistake, where there
/// is one.
pub(crate) fn modelled(
    fault: Option<Fault>,
    call: &Call,
    schema: &[u8],
    base: &[u8],
) -> (Status, Answer) {
    let mut made = call.clone();
    let mut after = base.to_vec();
    let (status, reference) = model_with(fault, &mut made, schema, &mut after);
    let answer = Answer {
        status: status.number(),
        reference,
        area: made.area,
        changes: Change::between(base, &after),
    };
    (status, answer)
}

impl Beside {
    pub fn new(store: Store) -> Beside {
        Beside {
            store: store.start(),
            now: State::default(),
            events: Vec::new(),
            bytes: 0,
            start: State::default(),
            summary: Summary::default(),
            difference: None,
            origin: Origin::default(),
        }
    }

    /// Tells where the calls that follow come from.
    pub fn begin(&mut self, suite: &'static str, seed: u64) {
        self.origin = Origin {
            suite,
            seed,
            step: 0,
        };
    }

    pub fn schema(&mut self, bytes: &[u8]) {
        self.push(Event::Schema(Rc::from(bytes)), bytes.len());
    }

    /// The data base of the calls that follow.
    pub fn set_base(&mut self, bytes: &[u8]) {
        self.push(Event::Base(Rc::from(bytes)), bytes.len());
    }

    /// The data base as it was last given.
    pub fn base_again(&mut self) {
        self.push(Event::Again, 0);
    }

    /// The data base as the calls have left it.
    pub fn base(&self) -> &[u8] {
        &self.now.base
    }

    fn push(&mut self, event: Event, bytes: usize) {
        self.now.follow(&event);
        self.events.push(event);
        self.bytes += bytes;
    }

    /// Makes a call; the answer is the model's.
    pub fn call(&mut self, call: &Call) -> Answered {
        let (status, expected) = modelled(None, call, &self.now.schema, &self.now.base);
        self.summary.calls += 1;
        if let Some(operation) = Operation::named(&call.op) {
            let count = self.summary.statuses.entry((operation, status));
            *count.or_default() += 1;
        }
        self.origin.step += 1;
        let answered = Answered {
            status,
            reference: expected.reference,
            area: expected.area.clone(),
        };
        let made = Event::Made {
            call: call.clone(),
            expected,
            origin: self.origin,
        };
        self.push(made, call.key.len() + call.area.len());
        if self.events.len() >= MOST_EVENTS || self.bytes >= MOST_BYTES {
            self.compare();
        }
        answered
    }

    /// As a store that the model's callers can use: the answer is the model's,
    /// and the same call goes to the store.
    pub fn as_store(&mut self, call: &mut Call, schema: &[u8], base: &mut [u8]) -> (Status, u32) {
        if *self.now.schema != *schema {
            self.schema(schema);
        }
        if self.now.base != base {
            self.set_base(base);
        }
        let answered = self.call(call);
        call.area = answered.area;
        base.copy_from_slice(&self.now.base);
        (answered.status, answered.reference)
    }

    /// Ends the store's process from another thread, where it has one.
    pub fn ender(&self) -> Option<Ender> {
        match &self.store {
            Called::Driver(driver) => Some(driver.ender()),
            Called::Model(_) => None,
        }
    }

    /// Whether the store has answered otherwise than the model.
    pub fn differs(&self) -> bool {
        self.difference.is_some()
    }

    /// Makes on the store what is left, and tells how it went.
    pub fn finish(mut self) -> Result<Summary, Box<Difference>> {
        self.compare();
        self.difference.map_or(Ok(self.summary), Err)
    }

    pub fn calls(&self) -> u64 {
        self.summary.calls
    }

    /// Makes the batch's calls on the store.
    pub fn compare(&mut self) {
        let events = std::mem::take(&mut self.events);
        self.bytes = 0;
        let start = std::mem::replace(&mut self.start, self.now.clone());
        if self.difference.is_none() {
            let wrong = first_wrong(&mut self.store, &start, &events);
            let told = wrong.map(|(at, answer)| told(start, events, at, answer));
            self.difference = told.map(Box::new);
        }
    }
}

/// The first answer that is not the model's, with the place of its call among
/// the events.
fn first_wrong(
    store: &mut Called,
    start: &State,
    events: &[Event],
) -> Option<(usize, Result<Answer, Failure>)> {
    let events_at = events.iter().enumerate();
    let mut expected = events_at.filter_map(|(at, event)| match event {
        Event::Made { expected, .. } => Some((at, expected)),
        _ => None,
    });
    let mut wrong = None;
    make(store, start, events, |answer| {
        let (at, should) = expected.next().expect("an answer to each call");
        let right = matches!(&answer, Ok(answer) if answer == should);
        if !right && wrong.is_none() {
            wrong = Some((at, answer));
        }
    });
    wrong
}

/// Makes the calls, and hands the store's answers over one by one.
fn make(
    store: &mut Called,
    start: &State,
    events: &[Event],
    mut each: impl FnMut(Result<Answer, Failure>),
) {
    match store {
        // It goes on from batch to batch by itself.
        Called::Driver(driver) => driver.make(&batch(events), each),
        Called::Model(fault) => {
            let mut state = start.clone();
            for event in events {
                if let Event::Made { call, .. } = event {
                    each(Ok(modelled(*fault, call, &state.schema, &state.base).1));
                }
                state.follow(event);
            }
        }
    }
}

/// As the driver is told.
fn batch(events: &[Event]) -> Batch {
    let mut batch = Batch::new();
    for event in events {
        match event {
            Event::Schema(bytes) => batch.schema(bytes),
            Event::Base(bytes) => batch.base(bytes),
            Event::Again => batch.base_again(),
            Event::Made { call, .. } => {
                let (op, set, path) = (&call.op, &call.set, &call.path);
                batch.call(op, set, call.reference, path, &call.key, &call.area);
            }
        }
    }
    batch
}

/// The case of the call at that place.
fn told(
    mut state: State,
    mut events: Vec<Event>,
    at: usize,
    answer: Result<Answer, Failure>,
) -> Difference {
    events[..at].iter().for_each(|event| state.follow(event));
    let Event::Made {
        call,
        expected,
        origin,
    } = events.swap_remove(at)
    else {
        unreachable!("only calls are answered")
    };
    Difference {
        origin,
        schema: state.schema.to_vec(),
        base: state.base,
        call,
        expected,
        answer,
    }
}
