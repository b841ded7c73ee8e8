//! Random runs: calls from a formatted data base, beside plain lists.
//!
//! Each run has a schema of its own. What the calls answer is compared with
//! what the lists say, and every few calls the whole store is read through,
//! forward, backward, by number and in sweeps. A run panics at the first
//! difference.

use std::collections::BTreeMap;

use yarugota_model::{find, DataBase, Operation, Schema, Search, Status};

use crate::calls::CallMaker;
use crate::damage::rubbish;
use crate::lists::Lists;
use crate::{make, schemas, Answered, Call, Random, Trace};

/// Calls between two readings of the whole store, where nothing else is said.
const COMPARE_EVERY: usize = 6;

/// What happened in all runs together, so that a test can tell that it tested
/// something.
#[derive(Default)]
pub struct Seen {
    pub statuses: BTreeMap<(Operation, Status), usize>,
    pub strangers_moved: usize,
    pub synonyms_added: usize,
    pub synonyms_brought_home: usize,
}

impl Seen {
    pub fn times(&self, operation: Operation, status: Status) -> usize {
        self.statuses
            .get(&(operation, status))
            .copied()
            .unwrap_or(0)
    }
}

/// One run of so many calls on a store.
pub fn run(
    seed: u64,
    steps: usize,
    store: impl FnMut(&mut Call, &[u8], &mut [u8]) -> (Status, u32),
    seen: &mut Seen,
) {
    run_reading_every(COMPARE_EVERY, seed, steps, store, seen);
}

/// The same with the whole store read through after every so many calls.
pub fn run_reading_every(
    calls: usize,
    seed: u64,
    steps: usize,
    store: impl FnMut(&mut Call, &[u8], &mut [u8]) -> (Status, u32),
    seen: &mut Seen,
) {
    let mut trace = Trace::new(seed);
    let mut random = Random::new(seed);
    let bytes = schemas::small(&mut random).encode();
    let schema = Schema::decode(&bytes).expect("a schema that keeps every rule");
    let mut run = Run::formatted(&mut random, store, &schema, &bytes);
    let maker = CallMaker::new(&mut random, &schema);
    for step in 1..=steps {
        trace.step = step;
        if random.once_in(8) {
            run.faulty_call(&maker.faulty(&mut random, &run.base));
        } else {
            run.likely_call(&maker.likely(&mut random, &run.base), seen);
        }
        if step % calls == 0 {
            run.compare();
        }
    }
}

struct Run<'a, Store> {
    store: Store,
    schema: &'a Schema,
    bytes: &'a [u8],
    base: Vec<u8>,
    lists: Lists<'a>,
}

impl<'a, Store> Run<'a, Store>
where
    Store: FnMut(&mut Call, &[u8], &mut [u8]) -> (Status, u32),
{
    /// Starts with rubbish, which FORMT clears away.
    fn formatted(
        random: &mut Random,
        store: Store,
        schema: &'a Schema,
        bytes: &'a [u8],
    ) -> Run<'a, Store> {
        let mut base = vec![0; schema.base_length()];
        rubbish(random, &mut base);
        let mut run = Run {
            store,
            schema,
            bytes,
            base,
            lists: Lists::new(schema),
        };
        let call = Call::plain(Operation::Formt.name());
        let formatted = run.make(&call);
        assert_eq!(formatted.status, Status::Done, "FORMT");
        assert_eq!(formatted.reference, call.reference, "FORMT");
        run
    }

    fn make(&mut self, call: &Call) -> Answered {
        make(&mut self.store, call, self.bytes, &mut self.base)
    }

    /// A call with spoilt parameters may be refused for any reason but damage.
    fn faulty_call(&mut self, call: &Call) {
        let answered = self.make(call);
        assert_ne!(answered.status, Status::Damg, "{call:?}");
        if answered.status == Status::Done {
            self.lists.note(call, answered.reference);
        }
    }

    /// A well-made call answers what the lists say.
    fn likely_call(&mut self, call: &Call, seen: &mut Seen) {
        let operation = Operation::named(&call.op).expect("a known operation");
        let status = self.lists.status(call);
        *seen.statuses.entry((operation, status)).or_default() += 1;
        if status == Status::Done {
            self.look_ahead(call, operation, seen);
        }
        let answered = self.make(call);
        assert_eq!(answered.status, status, "status of {call:?}");
        if status != Status::Done {
            return;
        }
        if let Some(reference) = self.lists.reference(call) {
            assert_eq!(answered.reference, reference, "reference of {call:?}");
        }
        if let Some(area) = self.lists.area(call, answered.reference) {
            assert_eq!(answered.area, area, "area of {call:?}");
        }
        self.lists.note(call, answered.reference);
    }

    /// Counts the moves that a call on a master set is about to make.
    fn look_ahead(&self, call: &Call, operation: Operation, seen: &mut Seen) {
        let base = DataBase {
            schema: self.schema,
            bytes: &self.base,
        };
        if !matches!(operation, Operation::AddM | Operation::DelM) {
            return;
        }
        let entry = self.schema.entry_named(&call.set).expect("a known set");
        let set = base.set(entry);
        match find(&set, &call.key) {
            Ok(Search::HomeHeldByStranger) => seen.strangers_moved += 1,
            Ok(Search::ChainEndsAt(_)) => seen.synonyms_added += 1,
            Ok(Search::Found(number)) => {
                let at_home = number == set.home(&call.key);
                if at_home && set.record(number).root_next() != 0 {
                    seen.synonyms_brought_home += 1;
                }
            }
            _ => {}
        }
    }

    /// Reads the whole store through, which must not change it.
    fn compare(&mut self) {
        let held = self.base.clone();
        let (store, bytes, base) = (&mut self.store, self.bytes, &mut self.base);
        self.lists
            .compare(|call| make(&mut *store, call, bytes, base));
        assert!(self.base == held, "reading changed the data base");
    }
}
