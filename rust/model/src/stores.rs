//! The answer of a call, and the stores that go with it.
//!
//! "All reading and testing precedes storing": a call collects what it will
//! store while it reads the data base as it was on entry. Where two stores
//! meet, the later one goes over the earlier one.

use std::collections::BTreeSet;

use crate::block::{seal, sealed, BLOCK};
use crate::database::{Record, Set};
use crate::fault::Fault;
use crate::layout::{ROOT_NEXT, ROOT_PRIOR};
use crate::status::Status;

/// What a call that is done gives back.
pub struct Answer {
    pub reference: u32,
    /// The area of a read that gave a record; otherwise the area stays as it
    /// was.
    pub area: Option<Vec<u8>>,
    pub stores: Stores,
}

impl Answer {
    pub fn reference(reference: u32) -> Answer {
        Answer::stored(reference, Stores::default())
    }

    pub fn stored(reference: u32, stores: Stores) -> Answer {
        Answer {
            reference,
            area: None,
            stores,
        }
    }

    /// "Reads, READM too, [...] return the record's number."
    pub fn read(number: u32, record: Record) -> Answer {
        Answer {
            reference: number,
            area: Some(record.area()),
            stores: Stores::default(),
        }
    }
}

/// Stores in the order in which they are to be made.
#[derive(Default)]
pub struct Stores {
    list: Vec<Store>,
}

struct Store {
    offset: usize,
    bytes: Vec<u8>,
}

impl Stores {
    /// Bytes of one record from its byte `at` on. None at all (D may be 0)
    /// still count as a store into the record's block.
    pub fn bytes(&mut self, set: &Set, record: u32, at: usize, bytes: Vec<u8>) {
        let offset = set.place.offset(record) + at;
        self.list.push(Store { offset, bytes });
    }

    pub fn record(&mut self, set: &Set, record: u32, bytes: Vec<u8>) {
        self.bytes(set, record, 0, bytes);
    }

    /// "A wiped record is all zero."
    pub fn wipe(&mut self, set: &Set, record: u32) {
        self.record(set, record, vec![0; set.place.record_length]);
    }

    pub fn pointer(&mut self, set: &Set, record: u32, at: usize, value: u32) {
        self.bytes(set, record, at, value.to_be_bytes().to_vec());
    }

    /// ROOT as one path, "prior's side, next's side": what the record before
    /// has as its next, and what the record after has as its prior.
    pub fn root(&mut self, set: &Set, prior: u32, next: u32, after_prior: u32, before_next: u32) {
        if prior != 0 {
            self.pointer(set, prior, ROOT_NEXT, after_prior);
        }
        if next != 0 {
            self.pointer(set, next, ROOT_PRIOR, before_next);
        }
    }

    /// Tests the checks of the blocks to be stored into (the last of the final
    /// 16), makes the stores, "then the checks of the blocks stored into".
    pub fn carry_out(&self, fault: Option<Fault>, base: &mut [u8]) -> Result<(), Status> {
        let mut blocks = self.blocks();
        let tested = match fault {
            Some(Fault::CheckNotTested) => false,
            Some(Fault::NoCheckForNoD) => !self.list.iter().all(|store| store.bytes.is_empty()),
            _ => true,
        };
        for &block in &blocks {
            if tested && !sealed(&base[bytes_of(block)], block as u32) {
                return Err(Status::Damg);
            }
        }
        let mut list: Vec<&Store> = self.list.iter().collect();
        if fault == Some(Fault::StoresBackward) {
            list.reverse();
        }
        for Store { offset, bytes } in list {
            base[*offset..offset + bytes.len()].copy_from_slice(bytes);
        }
        if fault == Some(Fault::OneCheckSet) {
            blocks.retain(|&block| block == self.list[0].offset / BLOCK);
        }
        for &block in &blocks {
            seal(&mut base[bytes_of(block)], block as u32);
        }
        Ok(())
    }

    fn blocks(&self) -> BTreeSet<usize> {
        self.list.iter().map(|store| store.offset / BLOCK).collect()
    }
}

fn bytes_of(block: usize) -> std::ops::Range<usize> {
    block * BLOCK..(block + 1) * BLOCK
}
