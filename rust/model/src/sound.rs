//! What SINON judges: whether a data base is sound.
//!
//! Each function below is one clause of document 01's sentence, in its order.

use std::collections::BTreeMap;

use crate::block::{sealed, BLOCK, CHECK};
use crate::bytes::{all_zero, blank};
use crate::database::{DataBase, Record, Set, LIVE};
use crate::fault::Fault;
use crate::schema::{Kind, Path, Schema};

/// A data base of the wrong length is not sound either.
pub fn sound(schema: &Schema, bytes: &[u8]) -> bool {
    let base = DataBase { schema, bytes };
    bytes.len() == schema.base_length()
        && checks_true(&base)
        && base.sets().all(|set| {
            states_right(&set)
                && free_records_zero(&set)
                && fillers_zero(&set)
                && leftovers_zero(&set)
                && no_blank_key(&set)
        })
        && masters(&base).all(|set| keys_distinct(&set) && homes_are_chains(&set))
        && paths(&base).all(|on| paths_are_chains(&on) && keys_have_masters(&on))
}

/// "all checks true"
fn checks_true(base: &DataBase) -> bool {
    let mut blocks = base.bytes.chunks_exact(BLOCK).enumerate();
    blocks.all(|(number, block)| sealed(block, number as u32))
}

/// "states 0 or 1"
fn states_right(set: &Set) -> bool {
    set.records()
        .all(|(_, record)| matches!(record.state(), 0 | LIVE))
}

/// "free records [...] zero"
fn free_records_zero(set: &Set) -> bool {
    set.records()
        .all(|(_, record)| record.live() || all_zero(record.bytes))
}

/// "fillers [...] zero": the three bytes after each state.
fn fillers_zero(set: &Set) -> bool {
    set.records().all(|(_, record)| all_zero(record.filler()))
}

/// "leftovers zero": in each block, all bytes before the check that no record
/// of 1..R takes.
fn leftovers_zero(set: &Set) -> bool {
    let place = set.place;
    let records = match set.fault {
        Some(Fault::NoLeftovers) => place.blocks * place.records_per_block,
        _ => set.entry.records as usize,
    };
    (0..place.blocks).all(|block| {
        let in_block = place
            .records_per_block
            .min(records - block * place.records_per_block);
        let start = (place.first_block + block) * BLOCK;
        let taken = in_block * place.record_length;
        all_zero(&set.bytes[start + taken..start + CHECK])
    })
}

/// "no blank key": of a live master, or on any path of a live variable record.
fn no_blank_key(set: &Set) -> bool {
    set.live_records()
        .all(|(_, record)| record.keys().into_iter().all(|key| !blank(key)))
}

fn masters<'a>(base: &DataBase<'a>) -> impl Iterator<Item = Set<'a>> {
    base.sets().filter(|set| set.entry.kind == Kind::Master)
}

/// "live master keys distinct": within their set.
fn keys_distinct(set: &Set) -> bool {
    let keys = set.live_records().map(|(_, record)| record.key());
    counted(keys).values().all(|&count| count == 1)
}

/// "each home's masters one two-way chain from the home, 0 at both ends". A
/// home without masters of its own may be free or hold a stranger.
fn homes_are_chains(set: &Set) -> bool {
    let homes = set.live_records().map(|(_, record)| set.home(record.key()));
    counted(homes).into_iter().all(|(home, count)| {
        let walked = walk(set, home, |record| {
            let belongs = set.home(record.key()) == home;
            belongs.then(|| (record.root_prior(), record.root_next()))
        });
        walked.is_some_and(|walked| walked.count == count)
    })
}

/// One path of one variable set, with its records and its masters.
struct OnPath<'a> {
    set: Set<'a>,
    slot: usize,
    path: &'a Path,
    masters: Set<'a>,
}

/// All paths of all variable sets.
fn paths<'a>(base: &DataBase<'a>) -> impl Iterator<Item = OnPath<'a>> + use<'a> {
    let base = *base;
    base.sets().flat_map(move |set| {
        let slots = set.entry.paths.iter().enumerate();
        slots.map(move |(slot, path)| OnPath {
            set,
            slot,
            path,
            masters: base.set(path.master),
        })
    })
}

impl<'a> OnPath<'a> {
    fn keys(&self) -> impl Iterator<Item = &'a [u8]> + use<'a, '_> {
        let slot = self.slot;
        let records = self.set.live_records();
        records.map(move |(_, record)| record.path_key(slot))
    }
}

/// "each path of each master one two-way chain from first to last, 0 at both
/// ends, holding exactly the live records of that key"
fn paths_are_chains(on: &OnPath) -> bool {
    let records_of_key = counted(on.keys());
    on.masters.live_records().all(|(_, master)| {
        let key = master.key();
        let walked = walk(&on.set, master.first(on.path.linkage), |record| {
            let belongs = record.path_key(on.slot) == key;
            belongs.then(|| (record.prior(on.slot), record.next(on.slot)))
        });
        walked
            == Some(Walked {
                last: master.last(on.path.linkage),
                count: records_of_key.get(key).copied().unwrap_or(0),
            })
    })
}

/// "every variable key has its master"
fn keys_have_masters(on: &OnPath) -> bool {
    let masters = on.masters.live_records();
    let masters = counted(masters.map(|(_, master)| master.key()));
    on.keys().all(|key| masters.contains_key(key))
}

/// A chain walked to its end: its last record, 0 if it has none, and how many
/// it has.
#[derive(PartialEq, Eq)]
struct Walked {
    last: u32,
    count: usize,
}

/// Walks a two-way chain from its first record until 0. `pointers` gives prior
/// and next of a record that belongs to the chain. `None` if a record on the
/// way is not there, not live, does not belong, or does not lead back to the
/// one before it, 0 for the first.
///
/// The walk ends: the first record to be met a second time would have to lead
/// back to two different records, or to one and to 0.
fn walk<'a>(
    set: &Set<'a>,
    first: u32,
    pointers: impl Fn(&Record<'a>) -> Option<(u32, u32)>,
) -> Option<Walked> {
    let mut walked = Walked { last: 0, count: 0 };
    let mut number = first;
    while number != 0 {
        let record = set.live_record(number)?;
        let (prior, next) = pointers(&record)?;
        let goes_on = match set.fault {
            Some(Fault::SoundForwardOnly) => walked.count < set.entry.records as usize,
            _ => prior == walked.last,
        };
        if !goes_on {
            return None;
        }
        walked.last = number;
        walked.count += 1;
        number = next;
    }
    Some(walked)
}

/// How often each value comes.
fn counted<T: Ord>(values: impl Iterator<Item = T>) -> BTreeMap<T, usize> {
    let mut counts = BTreeMap::new();
    for value in values {
        *counts.entry(value).or_insert(0) += 1;
    }
    counts
}
