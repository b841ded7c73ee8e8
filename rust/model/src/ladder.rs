//! The ladder of tests on the parameters, from 4 to "11 by form", in the order
//! of document 01. Tests 1 to 3 stand in `call`; what follows needs the
//! records and stands with the calls.

use crate::bytes::blank;
use crate::database::{DataBase, Set};
use crate::fault::Fault;
use crate::operation::Operation;
use crate::reference::{lk, END};
use crate::schema::Kind;
use crate::status::Status;

/// What a call is given, apart from schema and data base.
#[derive(Clone, Copy)]
pub struct Request<'a> {
    pub operation: Operation,
    pub set: &'a [u8; 4],
    pub reference: u32,
    pub path: &'a [u8; 8],
    pub key: &'a [u8],
    pub area: &'a [u8],
}

/// Master calls: 4, 5, 7, 8, 9, 10. RQLOC and DEL-M drop out of 7, and only
/// ADD-M and WRITM compare the area's key.
pub fn master_call<'a>(base: &DataBase<'a>, request: &Request) -> Result<Set<'a>, Status> {
    let set = named_set(base, request)?;
    of_kind(&set, Kind::Master)?;
    area_and_key(&set, request, set.entry.key_length)?;
    let compared = matches!(request.operation, Operation::AddM | Operation::Writm);
    if compared {
        let (keys, _) = set.entry.split_area(request.area);
        // "9 for any area key of ADD-M": a blank area key of WRITM is KEYS, as
        // the control key is not blank.
        if request.operation == Operation::AddM {
            refuse(blank(keys[0]), Status::Bctl)?;
        }
        refuse(keys[0] != request.key, Status::Keys)?;
    }
    Ok(set)
}

/// Variable calls: 4 to 11 by form. Gives the set and the named path's slot.
pub fn variable_call<'a>(
    base: &DataBase<'a>,
    request: &Request,
) -> Result<(Set<'a>, usize), Status> {
    let set = named_set(base, request)?;
    of_kind(&set, Kind::Variable)?;
    let slot = base
        .schema
        .slot_named(set.entry, request.path)
        .ok_or(Status::Path)?;
    let path = &set.entry.paths[slot];
    area_and_key(&set, request, path.key_length)?;
    if request.operation.is_add() {
        let (keys, _) = set.entry.split_area(request.area);
        let tested = match set.fault {
            Some(Fault::OneBlankKey) => &keys[slot..=slot],
            _ => &keys[..],
        };
        refuse(tested.iter().any(|key| blank(key)), Status::Bctl)?;
        refuse(keys[slot] != request.key, Status::Keys)?;
    }
    let formed = reference_formed(request, &set, lk(path.letters));
    refuse(!formed, Status::Ivrp)?;
    Ok((set, slot))
}

/// "RDNXT tests 1 to 5, 7, then 11", and "RDNXT takes both kinds", so 5 never
/// refuses it. Its form is "0..R".
pub fn rdnxt<'a>(base: &DataBase<'a>, request: &Request) -> Result<Set<'a>, Status> {
    let set = named_set(base, request)?;
    area_length(&set, request)?;
    refuse(request.reference > set.entry.records, Status::Ivrp)?;
    Ok(set)
}

/// A test of the ladder: `refused` gives the status.
pub fn refuse(refused: bool, status: Status) -> Result<(), Status> {
    if refused {
        Err(status)
    } else {
        Ok(())
    }
}

fn named_set<'a>(base: &DataBase<'a>, request: &Request) -> Result<Set<'a>, Status> {
    let entry = base.schema.entry_named(request.set).ok_or(Status::Fntf)?;
    Ok(base.set(entry))
}

/// "master call on a variable set, or the reverse"
fn of_kind(set: &Set, kind: Kind) -> Result<(), Status> {
    refuse(set.entry.kind != kind, Status::Kind)
}

fn area_length(set: &Set, request: &Request) -> Result<(), Status> {
    let wrong = request.area.len() != set.entry.area_length();
    let looked_at = request.operation.looks_at_area()
        || request.operation == Operation::Rqloc && set.fault == Some(Fault::RqlocTestsArea);
    refuse(looked_at && wrong, Status::Area)
}

/// 7, then "8 and 9 for the control key".
fn area_and_key(set: &Set, request: &Request, key_length: usize) -> Result<(), Status> {
    let wrong = request.key.len() != key_length;
    let too_early = set.fault == Some(Fault::KeyBeforeArea);
    refuse(wrong && too_early, Status::Klen)?;
    area_length(set, request)?;
    refuse(wrong, Status::Klen)?;
    refuse(blank(request.key), Status::Bctl)
}

/// "READV, READR take the named path's LKxx or 1..R; [...] ADDVC anything but
/// END.; other variable calls 1..R."
fn reference_formed(request: &Request, set: &Set, lkxx: u32) -> bool {
    let reference = request.reference;
    match request.operation {
        Operation::Readv | Operation::Readr => reference == lkxx || set.has(reference),
        Operation::Addvc => reference != END,
        _ => set.has(reference),
    }
}
