//! What the calls along a path share: the master that a chain hangs on, the
//! referenced record, and the pointers between records.

use crate::database::{DataBase, Record, Set};
use crate::fault::Fault;
use crate::home::find_master;
use crate::ladder::{refuse, Request};
use crate::status::Status;

/// A master record as one path to it sees it.
#[derive(Clone, Copy)]
pub struct ChainMaster<'a> {
    pub set: Set<'a>,
    pub number: u32,
    pub linkage: usize,
}

impl<'a> ChainMaster<'a> {
    /// "find the named master (16, then 12 [...])", and the same on the other
    /// paths.
    pub fn find(
        base: &DataBase<'a>,
        set: &Set,
        slot: usize,
        key: &[u8],
    ) -> Result<ChainMaster<'a>, Status> {
        let path = &set.entry.paths[slot];
        let masters = base.set(path.master);
        Ok(ChainMaster {
            set: masters,
            number: find_master(&masters, key)?,
            linkage: path.linkage,
        })
    }

    pub fn first(&self) -> u32 {
        self.set.record(self.number).first(self.linkage)
    }

    pub fn last(&self) -> u32 {
        self.set.record(self.number).last(self.linkage)
    }

    /// The final 16: "first and last are one 0 and one not".
    pub fn ends_agree(&self) -> Result<(), Status> {
        refuse((self.first() == 0) != (self.last() == 0), Status::Damg)
    }
}

/// "11 if the referenced record is not live or its key on that path differs"
pub fn referenced<'a>(set: &Set<'a>, slot: usize, request: &Request) -> Result<Record<'a>, Status> {
    set.live_record(request.reference)
        .filter(|record| record.path_key(slot) == request.key)
        .ok_or(Status::Ivrp)
}

/// The final 16 for pointers along a path: one that the call uses "is not 0
/// and is above R, not live, or (variable) of another key on that path".
pub fn usable(set: &Set, slot: usize, pointer: u32, key: &[u8]) -> Result<(), Status> {
    let record = set.live_record(pointer);
    let any_key = set.fault == Some(Fault::OtherKeyTaken);
    let of_that_key = record.is_some_and(|record| any_key || record.path_key(slot) == key);
    refuse(pointer != 0 && !of_that_key, Status::Damg)
}
