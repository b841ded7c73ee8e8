//! The calls that read and write variable records and leave their chains
//! alone.

use crate::chains::{referenced, usable, ChainMaster};
use crate::database::DataBase;
use crate::fault::Fault;
use crate::ladder::{refuse, variable_call, Request};
use crate::reference::{lk, END};
use crate::status::Status;
use crate::stores::{Answer, Stores};

/// Which way a read goes along a chain.
#[derive(Clone, Copy)]
pub enum Direction {
    /// READV
    Forward,
    /// READR
    Backward,
}

/// "READV with LKxx gives the first record, with a number the one after it;
/// READR the last, or the one before."
pub fn read_along(
    direction: Direction,
    base: &DataBase,
    request: &Request,
) -> Result<Answer, Status> {
    let (set, slot) = variable_call(base, request)?;
    let master = ChainMaster::find(base, &set, slot, request.key)?;
    let pointer = if request.reference == lk(set.entry.paths[slot].letters) {
        if set.fault != Some(Fault::EndsNotTested) {
            master.ends_agree()?;
        }
        match direction {
            Direction::Forward => master.first(),
            Direction::Backward => master.last(),
        }
    } else {
        let record = referenced(&set, slot, request)?;
        match direction {
            Direction::Forward => record.next(slot),
            Direction::Backward => record.prior(slot),
        }
    };
    // "No such record: status 0, reference END., area untouched."
    if pointer == 0 {
        return Ok(Answer::reference(END));
    }
    usable(&set, slot, pointer, request.key)?;
    Ok(Answer::read(pointer, set.record(pointer)))
}

/// "READD reads the numbered record."
pub fn read_d(base: &DataBase, request: &Request) -> Result<Answer, Status> {
    let (set, slot) = variable_call(base, request)?;
    ChainMaster::find(base, &set, slot, request.key)?;
    let record = referenced(&set, slot, request)?;
    Ok(Answer::read(request.reference, record))
}

/// "WRITM and WRITV replace the D bytes." WRITV may not change a key: "10 for
/// WRITV if an area key differs from the stored one".
pub fn writ_v(base: &DataBase, request: &Request) -> Result<Answer, Status> {
    let (set, slot) = variable_call(base, request)?;
    ChainMaster::find(base, &set, slot, request.key)?;
    let record = referenced(&set, slot, request)?;
    let (keys, data) = set.entry.split_area(request.area);
    let differs = match set.fault {
        Some(Fault::WritvNamedKey) => keys[slot] != record.path_key(slot),
        _ => keys != record.keys(),
    };
    refuse(differs, Status::Keys)?;
    let mut stores = Stores::default();
    stores.bytes(&set, request.reference, set.entry.data_at(), data.to_vec());
    Ok(Answer::stored(request.reference, stores))
}
