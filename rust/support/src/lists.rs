//! What a store holds, as plain lists.
//!
//! The lists learn only from calls that were done: from the call and from the
//! reference that it returned. They know nothing of homes, pointers or bytes.
//! From them follows what a sound store should answer, and what reading
//! through it should show.

use std::collections::BTreeMap;

use yarugota_model::reference::{lk, END};
use yarugota_model::{Entry, Kind, Operation, Schema, Status};

use crate::{Answered, Call};

pub struct Lists<'a> {
    schema: &'a Schema,
    /// For each entry, a master set's areas by key.
    masters: Vec<BTreeMap<Vec<u8>, Vec<u8>>>,
    /// For each entry, a variable set's areas by record number.
    records: Vec<BTreeMap<u32, Vec<u8>>>,
    /// Record numbers from first to last.
    chains: BTreeMap<Chain, Vec<u32>>,
}

/// One chain: of a variable set's entry, a path's slot, and a key.
type Chain = (usize, usize, Vec<u8>);

/// A call's names looked up in the schema.
struct Named<'a> {
    operation: Operation,
    number: usize,
    entry: &'a Entry,
    /// 0 where the call names no path.
    slot: usize,
}

impl<'a> Lists<'a> {
    /// The lists of a formatted store.
    pub fn new(schema: &'a Schema) -> Lists<'a> {
        let sets = schema.entries.len();
        Lists {
            schema,
            masters: vec![BTreeMap::new(); sets],
            records: vec![BTreeMap::new(); sets],
            chains: BTreeMap::new(),
        }
    }

    /// Learns from a call that was done. It stores nothing else than what the
    /// call says.
    pub fn note(&mut self, call: &Call, returned: u32) {
        let operation = Operation::named(&call.op).expect("a known operation");
        if operation == Operation::Formt {
            *self = Lists::new(self.schema);
        }
        let Some(named) = self.named(call) else {
            return;
        };
        let (masters, records) = (
            &mut self.masters[named.number],
            &mut self.records[named.number],
        );
        match operation {
            Operation::AddM | Operation::Writm => {
                masters.insert(call.key.clone(), call.area.clone());
            }
            Operation::DelM => {
                masters.remove(&call.key);
            }
            Operation::Writv => {
                records.insert(call.reference, call.area.clone());
            }
            Operation::Addvc | Operation::Addvb | Operation::Addva => {
                records.insert(returned, call.area.clone());
                self.link(&named, call, returned);
            }
            Operation::Delvd => {
                let area = records.remove(&call.reference).expect("a known record");
                self.unlink(&named, &area, call.reference);
            }
            _ => {}
        }
    }

    fn link(&mut self, named: &Named, call: &Call, new: u32) {
        let (keys, _) = named.entry.split_area(&call.area);
        for (slot, key) in keys.into_iter().enumerate() {
            let chain = self.chains.entry((named.number, slot, key.to_vec()));
            let chain = chain.or_default();
            let place = match named.operation {
                Operation::Addva if slot == named.slot => place_of(chain, call.reference) + 1,
                Operation::Addvb if slot == named.slot => place_of(chain, call.reference),
                _ => chain.len(),
            };
            chain.insert(place, new);
        }
    }

    fn unlink(&mut self, named: &Named, area: &[u8], gone: u32) {
        let (keys, _) = named.entry.split_area(area);
        for (slot, key) in keys.into_iter().enumerate() {
            let chain = self.chains.entry((named.number, slot, key.to_vec()));
            chain.or_default().retain(|&number| number != gone);
        }
    }

    fn named(&self, call: &Call) -> Option<Named<'a>> {
        let number = self.schema.entry_named(&call.set)?;
        let entry = &self.schema.entries[number];
        Some(Named {
            operation: Operation::named(&call.op)?,
            number,
            entry,
            slot: self.schema.slot_named(entry, &call.path).unwrap_or(0),
        })
    }

    fn chain(&self, set: usize, slot: usize, key: &[u8]) -> &[u32] {
        let chain = self.chains.get(&(set, slot, key.to_vec()));
        chain.map_or(&[], Vec::as_slice)
    }
}

fn place_of(chain: &[u32], number: u32) -> usize {
    let place = chain.iter().position(|&other| other == number);
    place.expect("a record of the chain")
}

/// What a sound store should answer to a call whose names are right and whose
/// lengths are right.
impl Lists<'_> {
    pub fn status(&self, call: &Call) -> Status {
        let Some(named) = self.named(call) else {
            return Status::Done;
        };
        let refused = match named.operation {
            Operation::Formt | Operation::Sinon => Ok(()),
            Operation::Rdnxt => {
                let known = call.reference <= named.entry.records;
                expect(known, Status::Ivrp)
            }
            _ if named.entry.kind == Kind::Master => self.master_status(&named, call),
            _ => self.variable_status(&named, call),
        };
        refused.err().unwrap_or(Status::Done)
    }

    fn master_status(&self, named: &Named, call: &Call) -> Result<(), Status> {
        use Operation::{AddM, DelM, Rqloc, Writm};
        expect(!blank(&call.key), Status::Bctl)?;
        let masters = &self.masters[named.number];
        let exists = masters.contains_key(&call.key);
        let full = masters.len() == named.entry.records as usize;
        if matches!(named.operation, AddM | Writm) {
            let key = named.entry.split_area(&call.area).0[0];
            expect(named.operation == Writm || !blank(key), Status::Bctl)?;
            expect(key == call.key, Status::Keys)?;
        }
        match named.operation {
            Rqloc => Ok(()),
            AddM => {
                expect(!exists, Status::Dupm)?;
                expect(!full, Status::Full)
            }
            _ => {
                expect(exists, Status::Mrnf)?;
                let chained = named.operation == DelM && self.has_chain(named.number, &call.key);
                expect(!chained, Status::Imdl)
            }
        }
    }

    /// Whether any path leads from this master to a record.
    fn has_chain(&self, master: usize, key: &[u8]) -> bool {
        self.chains.iter().any(|((set, slot, of), chain)| {
            let path = &self.schema.entries[*set].paths[*slot];
            path.master == master && of == key && !chain.is_empty()
        })
    }

    fn variable_status(&self, named: &Named, call: &Call) -> Result<(), Status> {
        let (operation, entry, slot) = (named.operation, named.entry, named.slot);
        let path = &entry.paths[slot];
        expect(!blank(&call.key), Status::Bctl)?;
        let keys: Vec<&[u8]> = if operation.looks_at_area() {
            entry.split_area(&call.area).0
        } else {
            Vec::new()
        };
        if operation.is_add() {
            expect(!keys.iter().any(|key| blank(key)), Status::Bctl)?;
            expect(keys[slot] == call.key, Status::Keys)?;
        }
        let from_end = matches!(operation, Operation::Readv | Operation::Readr)
            && call.reference == lk(path.letters);
        let anywhere = operation == Operation::Addvc && call.reference != END;
        let in_set = (1..=entry.records).contains(&call.reference);
        let numbered = operation != Operation::Addvc && in_set;
        expect(from_end || anywhere || numbered, Status::Ivrp)?;
        expect(
            self.masters[path.master].contains_key(&call.key),
            Status::Mrnf,
        )?;
        let chain = self.chain(named.number, slot, &call.key);
        let chained = chain.contains(&call.reference);
        expect(!numbered || chained, Status::Ivrp)?;
        if operation == Operation::Writv {
            let stored = &self.records[named.number][&call.reference];
            expect(keys == entry.split_area(stored).0, Status::Keys)?;
        }
        if operation.is_add() {
            let masters = entry.paths.iter().map(|path| &self.masters[path.master]);
            let all_there = masters.zip(keys).all(|(set, key)| set.contains_key(key));
            expect(all_there, Status::Mrnf)?;
            let full = self.records[named.number].len() == entry.records as usize;
            expect(!full, Status::Full)?;
        }
        Ok(())
    }

    /// The reference that a call returns when it is done. `None` where it is
    /// the number of a master, which the lists do not know.
    pub fn reference(&self, call: &Call) -> Option<u32> {
        let Some(named) = self.named(call) else {
            return Some(call.reference);
        };
        let chain = self.chain(named.number, named.slot, &call.key);
        let records = &self.records[named.number];
        match named.operation {
            Operation::Readm | Operation::Rqloc => None,
            Operation::Rdnxt if named.entry.kind == Kind::Master => None,
            Operation::Rdnxt => {
                let mut above = records.range(call.reference + 1..);
                Some(above.next().map_or(END, |(&number, _)| number))
            }
            Operation::Readv => Some(after(chain.iter(), call.reference).unwrap_or(END)),
            Operation::Readr => Some(after(chain.iter().rev(), call.reference).unwrap_or(END)),
            Operation::Delvd => {
                let letters = named.entry.paths[named.slot].letters;
                let prior = place_of(chain, call.reference).checked_sub(1);
                Some(prior.map_or(lk(letters), |place| chain[place]))
            }
            Operation::Addvc | Operation::Addvb | Operation::Addva => {
                (1..).find(|number| !records.contains_key(number))
            }
            _ => Some(call.reference),
        }
    }

    /// The area that a call leaves when it is done and returns this reference.
    /// `None` where it is the next master's, which the lists do not know.
    pub fn area<'a>(&'a self, call: &'a Call, returned: u32) -> Option<&'a [u8]> {
        let Some(named) = self.named(call) else {
            return Some(&call.area);
        };
        match named.operation {
            operation if !operation.is_read() || returned == END => Some(&call.area),
            Operation::Readm => Some(&self.masters[named.number][&call.key]),
            Operation::Rdnxt if named.entry.kind == Kind::Master => None,
            _ => Some(&self.records[named.number][&returned]),
        }
    }
}

/// The number after this one, or the first if this one is not among them, as
/// LKxx is not.
fn after<'a>(mut numbers: impl Iterator<Item = &'a u32> + Clone, number: u32) -> Option<u32> {
    let mut rest = numbers.clone();
    if rest.any(|&other| other == number) {
        rest.next().copied()
    } else {
        numbers.next().copied()
    }
}

fn expect(holds: bool, status: Status) -> Result<(), Status> {
    if holds {
        Ok(())
    } else {
        Err(status)
    }
}

fn blank(key: &[u8]) -> bool {
    key.iter().all(|&byte| byte == 0x20)
}

/// Reading through a store, and comparing with the lists. All of it panics at
/// the first difference.
impl Lists<'_> {
    pub fn compare(&self, mut store: impl FnMut(&Call) -> Answered) {
        let sinon = store(&Call::plain(Operation::Sinon.name()));
        assert_eq!(sinon.status, Status::Done, "the store is sound");
        for (number, entry) in self.schema.entries.iter().enumerate() {
            match entry.kind {
                Kind::Master => self.compare_masters(number, &mut store),
                Kind::Variable => {
                    self.compare_sweep(number, &mut store);
                    self.compare_numbers(number, &mut store);
                    self.compare_chains(number, &mut store);
                }
            }
        }
    }

    /// The sweep of a master set shows each master once, and READM finds each
    /// where the sweep has seen it.
    fn compare_masters(&self, number: usize, store: &mut impl FnMut(&Call) -> Answered) {
        let entry = &self.schema.entries[number];
        let mut swept = BTreeMap::new();
        for (record, area) in sweep(entry, store) {
            let key = area[..entry.key_length].to_vec();
            let read = store(&read(entry, Operation::Readm, 0, None, &key));
            assert_eq!(read.status, Status::Done, "READM of a swept master");
            assert_eq!((read.reference, &read.area), (record, &area), "READM");
            swept.insert(key, area);
        }
        assert_eq!(swept, self.masters[number], "masters");
    }

    fn compare_sweep(&self, number: usize, store: &mut impl FnMut(&Call) -> Answered) {
        let entry = &self.schema.entries[number];
        let swept = sweep(entry, store);
        let records = self.records[number].clone();
        assert_eq!(swept, Vec::from_iter(records), "records of the sweep");
    }

    /// READD gives every record, by each of its paths.
    fn compare_numbers(&self, number: usize, store: &mut impl FnMut(&Call) -> Answered) {
        let entry = &self.schema.entries[number];
        for (&record, area) in &self.records[number] {
            let (keys, _) = entry.split_area(area);
            for (path, key) in entry.paths.iter().zip(keys) {
                let name = self.schema.path_name(path);
                let read = store(&read(entry, Operation::Readd, record, Some(name), key));
                assert_eq!(read.status, Status::Done, "READD of a listed record");
                assert_eq!((read.reference, &read.area), (record, area), "READD");
            }
        }
    }

    /// Every chain forward and backward, the empty ones too.
    fn compare_chains(&self, number: usize, store: &mut impl FnMut(&Call) -> Answered) {
        let entry = &self.schema.entries[number];
        for (slot, path) in entry.paths.iter().enumerate() {
            let name = self.schema.path_name(path);
            for key in self.masters[path.master].keys() {
                let mut along = |operation| {
                    let first = lk(path.letters);
                    follow(entry, operation, first, Some(name), key, store)
                };
                let (forward, mut backward) = (along(Operation::Readv), along(Operation::Readr));
                let chain = self.chain(number, slot, key).iter();
                let areas = &self.records[number];
                let listed: Vec<(u32, Vec<u8>)> = chain
                    .map(|number| (*number, areas[number].clone()))
                    .collect();
                assert_eq!(forward, listed, "chain forward");
                backward.reverse();
                assert_eq!(backward, listed, "chain backward");
            }
        }
    }
}

/// All records of a set by RDNXT.
fn sweep(entry: &Entry, store: &mut impl FnMut(&Call) -> Answered) -> Vec<(u32, Vec<u8>)> {
    follow(entry, Operation::Rdnxt, 0, None, b"", store)
}

/// Reads from a reference on until END., and gives numbers and areas.
fn follow(
    entry: &Entry,
    operation: Operation,
    from: u32,
    path: Option<[u8; 8]>,
    key: &[u8],
    store: &mut impl FnMut(&Call) -> Answered,
) -> Vec<(u32, Vec<u8>)> {
    let mut seen = Vec::new();
    let mut reference = from;
    loop {
        let call = read(entry, operation, reference, path, key);
        let answered = store(&call);
        assert_eq!(answered.status, Status::Done, "{call:?}");
        if answered.reference == END {
            assert_eq!(answered.area, call.area, "area at END.");
            return seen;
        }
        assert!(seen.len() < entry.records as usize, "no end of {call:?}");
        reference = answered.reference;
        seen.push((reference, answered.area));
    }
}

/// A read with an area that holds nothing the store would.
fn read(
    entry: &Entry,
    operation: Operation,
    reference: u32,
    path: Option<[u8; 8]>,
    key: &[u8],
) -> Call {
    Call {
        op: *operation.name(),
        set: entry.name,
        reference,
        path: path.unwrap_or(*b"        "),
        key: key.to_vec(),
        area: vec![0xA5; entry.area_length()],
    }
}
