//! The calls on master sets.

use crate::database::{DataBase, Record, Set, LIVE};
use crate::fault::Fault;
use crate::home::{find, find_master, Search};
use crate::ladder::{master_call, refuse, Request};
use crate::layout::{MASTER_KEY, ROOT_PRIOR, STATE};
use crate::status::Status;
use crate::stores::{Answer, Stores};

pub fn read_m(base: &DataBase, request: &Request) -> Result<Answer, Status> {
    let set = master_call(base, request)?;
    let number = find_master(&set, request.key)?;
    Ok(Answer::read(number, set.record(number)))
}

/// "WRITM and WRITV replace the D bytes."
pub fn writ_m(base: &DataBase, request: &Request) -> Result<Answer, Status> {
    let set = master_call(base, request)?;
    let number = find_master(&set, request.key)?;
    let (_, data) = set.entry.split_area(request.area);
    let mut stores = Stores::default();
    stores.bytes(&set, number, set.entry.data_at(), data.to_vec());
    Ok(Answer::stored(request.reference, stores))
}

/// "RQLOC returns the home."
pub fn rqloc(base: &DataBase, request: &Request) -> Result<Answer, Status> {
    let set = master_call(base, request)?;
    Ok(Answer::reference(set.home(request.key)))
}

pub fn add_m(base: &DataBase, request: &Request) -> Result<Answer, Status> {
    let set = master_call(base, request)?;
    let stores = match find(&set, request.key)? {
        Search::Found(_) => return Err(Status::Dupm),
        Search::HomeFree => add_at_free_home(&set, request),
        Search::ChainEndsAt(last) => add_synonym(&set, request, last)?,
        Search::HomeHeldByStranger => add_over_stranger(&set, request)?,
    };
    Ok(Answer::stored(request.reference, stores))
}

/// "home free, take it"
fn add_at_free_home(set: &Set, request: &Request) -> Stores {
    let mut stores = Stores::default();
    let home = set.home(request.key);
    stores.record(set, home, new_master(set, request, 0));
    stores
}

/// "Home held by a record of that home: take the lowest-numbered free record,
/// linked last." Finding the key absent has walked to the last record, so
/// there is no further pointer to test.
fn add_synonym(set: &Set, request: &Request, last: u32) -> Result<Stores, Status> {
    let free = set.lowest_free().ok_or(Status::Full)?;
    let mut stores = Stores::default();
    stores.record(set, free, new_master(set, request, last));
    stores.root(set, last, 0, free, 0);
    Ok(stores)
}

/// "Home held by a stranger: the stranger moves to the lowest free record, its
/// neighbours follow it, the new master takes the home."
fn add_over_stranger(set: &Set, request: &Request) -> Result<Stores, Status> {
    let free = set.lowest_free().ok_or(Status::Full);
    if set.fault != Some(Fault::DamageBeforeFull) {
        free?;
    }
    let home = set.home(request.key);
    let stranger = set.record(home);
    let (mut prior, mut next) = (stranger.root_prior(), stranger.root_next());
    // A stranger is away from its home, so something must lead to it.
    let minded = set.fault != Some(Fault::StrangerPriorZero);
    refuse(prior == 0 && minded, Status::Damg)?;
    usable(set, prior)?;
    usable(set, next)?;
    let free = free?;
    match set.fault {
        Some(Fault::StrangerPriorSide) => prior = 0,
        Some(Fault::StrangerNextSide) => next = 0,
        _ => {}
    }
    let mut stores = Stores::default();
    stores.record(set, free, stranger.bytes.to_vec());
    stores.record(set, home, new_master(set, request, 0));
    stores.root(set, prior, next, free, free);
    Ok(stores)
}

/// A live master with no chains yet. A new master is always the last of its
/// home's chain, so its ROOT next is 0.
fn new_master(set: &Set, request: &Request, root_prior: u32) -> Vec<u8> {
    let entry = set.entry;
    let (keys, data) = entry.split_area(request.area);
    let mut record = vec![0; entry.record_length()];
    record[STATE] = LIVE;
    record[ROOT_PRIOR..MASTER_KEY].copy_from_slice(&root_prior.to_be_bytes());
    record[MASTER_KEY..MASTER_KEY + entry.key_length].copy_from_slice(keys[0]);
    record[entry.data_at()..].copy_from_slice(data);
    record
}

pub fn del_m(base: &DataBase, request: &Request) -> Result<Answer, Status> {
    let set = master_call(base, request)?;
    let number = find_master(&set, request.key)?;
    let record = set.record(number);
    refuse(has_first_or_last(&record), Status::Imdl)?;
    let at_home = number == set.home(request.key);
    let minded = set.fault != Some(Fault::DeletedPriorZero);
    refuse(!at_home && record.root_prior() == 0 && minded, Status::Damg)?;
    usable(&set, record.root_prior())?;
    usable(&set, record.root_next())?;
    let stores = if at_home && record.root_next() != 0 {
        bring_synonym_home(&set, number)?
    } else {
        unlink(&set, number)
    };
    Ok(Answer::stored(request.reference, stores))
}

/// "master has a first or last not 0": over all paths to it.
fn has_first_or_last(record: &Record) -> bool {
    let lasts = record.fault != Some(Fault::ImdlFirstsOnly);
    (0..record.entry.paths_to_it)
        .any(|linkage| record.first(linkage) != 0 || lasts && record.last(linkage) != 0)
}

/// "that synonym moves into the home, its ROOT prior 0, and its old place is
/// wiped". As the record at home has no prior, there is no prior's side.
fn bring_synonym_home(set: &Set, home: u32) -> Result<Stores, Status> {
    let old_place = set.record(home).root_next();
    let synonym = set.record(old_place);
    let after = synonym.root_next();
    usable(set, after)?;
    let mut moved = synonym.bytes.to_vec();
    if set.fault != Some(Fault::SynonymKeepsPrior) {
        moved[ROOT_PRIOR..MASTER_KEY].fill(0);
    }
    let mut stores = Stores::default();
    stores.record(set, home, moved);
    if set.fault != Some(Fault::SynonymNextSide) {
        stores.root(set, 0, after, 0, home);
    }
    stores.wipe(set, old_place);
    Ok(stores)
}

/// "Otherwise unlink and wipe."
fn unlink(set: &Set, number: u32) -> Stores {
    let record = set.record(number);
    let (prior, next) = (record.root_prior(), record.root_next());
    let mut stores = Stores::default();
    stores.root(set, prior, next, next, prior);
    stores.wipe(set, number);
    stores
}

/// The final 16 for ROOT pointers: one that the call uses "is not 0 and is
/// above R, not live".
fn usable(set: &Set, pointer: u32) -> Result<(), Status> {
    let leads_nowhere = pointer != 0 && set.live_record(pointer).is_none();
    refuse(leads_nowhere, Status::Damg)
}
