//! The data base as a call reads it: sets, records and their fields.

use crate::bytes::word;
use crate::fault::{is_one_above, Fault};
use crate::layout::{Place, FILLER, MASTER_KEY, ROOT_NEXT, ROOT_PRIOR, STATE};
use crate::schema::{Entry, Kind, Schema};

/// "Only state 1 counts as live; anything else is free."
pub const LIVE: u8 = 1;

/// A data base of the length that its schema asks for.
#[derive(Clone, Copy)]
pub struct DataBase<'a> {
    pub schema: &'a Schema,
    pub bytes: &'a [u8],
}

impl<'a> DataBase<'a> {
    pub fn set(&self, entry: usize) -> Set<'a> {
        Set {
            entry: &self.schema.entries[entry],
            place: self.schema.layout.places[entry],
            bytes: self.bytes,
            fault: self.schema.fault,
        }
    }

    pub fn sets(&self) -> impl Iterator<Item = Set<'a>> + use<'a> {
        let base = *self;
        (0..base.schema.entries.len()).map(move |entry| base.set(entry))
    }
}

/// One set of the data base.
#[derive(Clone, Copy)]
pub struct Set<'a> {
    pub entry: &'a Entry,
    pub place: Place,
    /// The bytes of the whole data base.
    pub bytes: &'a [u8],
    pub(crate) fault: Option<Fault>,
}

impl<'a> Set<'a> {
    /// The record of that number, which must be one of 1..R.
    pub fn record(&self, number: u32) -> Record<'a> {
        let offset = self.place.offset(number);
        Record {
            entry: self.entry,
            bytes: &self.bytes[offset..offset + self.place.record_length],
            fault: self.fault,
        }
    }

    /// All records with their numbers, from record 1.
    pub fn records(&self) -> impl Iterator<Item = (u32, Record<'a>)> + use<'a> {
        let set = *self;
        (1..=set.entry.records).map(move |number| (number, set.record(number)))
    }

    pub fn live_records(&self) -> impl Iterator<Item = (u32, Record<'a>)> + use<'a> {
        self.records().filter(|(_, record)| record.live())
    }

    pub fn has(&self, number: u32) -> bool {
        (1..=self.entry.records).contains(&number)
    }

    /// The record that a pointer leads to, if there is such a record and it is
    /// live.
    pub fn live_record(&self, pointer: u32) -> Option<Record<'a>> {
        let one_above = self.fault == Some(Fault::OneAboveR) && is_one_above(self, pointer);
        if !self.has(pointer) && !one_above {
            return None;
        }
        Some(self.record(pointer)).filter(Record::live)
    }

    pub fn lowest_free(&self) -> Option<u32> {
        let too_soon = self.fault == Some(Fault::FullTooSoon);
        if too_soon && self.record(self.entry.records).live() {
            return None;
        }
        let mut free = self.records().filter(|(_, record)| !record.live());
        free.next().map(|(number, _)| number)
    }
}

/// One record, live or free, with its fields.
#[derive(Clone, Copy)]
pub struct Record<'a> {
    pub entry: &'a Entry,
    pub bytes: &'a [u8],
    pub(crate) fault: Option<Fault>,
}

impl<'a> Record<'a> {
    pub fn state(&self) -> u8 {
        self.bytes[STATE]
    }

    pub fn live(&self) -> bool {
        self.state() == LIVE || self.fault == Some(Fault::AnyStateLive) && self.state() != 0
    }

    pub fn filler(&self) -> &'a [u8] {
        &self.bytes[FILLER]
    }

    pub fn data(&self) -> &'a [u8] {
        &self.bytes[self.entry.data_at()..]
    }

    /// The keys as the area has them: a master's one key, or a variable
    /// record's keys in path order.
    pub fn keys(&self) -> Vec<&'a [u8]> {
        match self.entry.kind {
            Kind::Master => vec![self.key()],
            Kind::Variable => (0..self.entry.paths.len())
                .map(|slot| self.path_key(slot))
                .collect(),
        }
    }

    /// The record as a read hands it over: keys, then D bytes.
    pub fn area(&self) -> Vec<u8> {
        let mut area = self.keys().concat();
        area.extend_from_slice(self.data());
        area
    }
}

/// The fields of a master record.
impl<'a> Record<'a> {
    pub fn root_next(&self) -> u32 {
        word(self.bytes, ROOT_NEXT)
    }

    pub fn root_prior(&self) -> u32 {
        word(self.bytes, ROOT_PRIOR)
    }

    pub fn key(&self) -> &'a [u8] {
        &self.bytes[MASTER_KEY..MASTER_KEY + self.entry.key_length]
    }

    pub fn first(&self, linkage: usize) -> u32 {
        word(self.bytes, self.entry.first_at(linkage))
    }

    pub fn last(&self, linkage: usize) -> u32 {
        word(self.bytes, self.entry.last_at(linkage))
    }
}

/// The fields of a variable record.
impl<'a> Record<'a> {
    pub fn path_key(&self, slot: usize) -> &'a [u8] {
        &self.bytes[self.entry.key_at(slot)..self.entry.prior_at(slot)]
    }

    pub fn prior(&self, slot: usize) -> u32 {
        word(self.bytes, self.entry.prior_at(slot))
    }

    pub fn next(&self, slot: usize) -> u32 {
        word(self.bytes, self.entry.next_at(slot))
    }
}
