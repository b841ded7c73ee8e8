//! The calls that link a new variable record into its chains, or unlink one.

use crate::chains::{referenced, usable, ChainMaster};
use crate::database::{DataBase, Record, Set, LIVE};
use crate::fault::Fault;
use crate::ladder::{refuse, variable_call, Request};
use crate::layout::STATE;
use crate::reference::lk;
use crate::status::Status;
use crate::stores::{Answer, Stores};

/// Where an add links the new record on the named path. On the others it is
/// linked last.
#[derive(Clone, Copy)]
pub enum Position {
    /// ADDVC
    Last,
    /// ADDVA
    After,
    /// ADDVB
    Before,
}

/// "ADDVC links last on all paths. ADDVA and ADDVB link after or before the
/// reference on the named path, last on the others. The new record is the
/// lowest-numbered free one, and the reference becomes its number."
pub fn add(position: Position, base: &DataBase, request: &Request) -> Result<Answer, Status> {
    let (set, slot) = variable_call(base, request)?;
    let named = ChainMaster::find(base, &set, slot, request.key)?;
    let neighbours = position.neighbours(&set, slot, request)?;
    let (keys, data) = set.entry.split_area(request.area);
    let masters = masters_on_paths(base, &set, slot, named, &keys)?;
    let new = set.lowest_free().ok_or(Status::Full)?;
    let mut links: Vec<Link> = masters.into_iter().enumerate().map(Link::last).collect();
    if let Some((prior, next)) = neighbours {
        links[slot].prior = prior;
        links[slot].next = next;
    }
    test_links(&links, &set, &keys)?;

    let mut stores = Stores::default();
    stores.record(&set, new, new_record(&set, &keys, &links, data));
    for link in &links {
        if link.slot != slot && set.fault == Some(Fault::NamedPathOnly) {
            continue;
        }
        link.prior_side(&mut stores, &set, new);
        if link.next == 0 || set.fault != Some(Fault::NoNextSide) {
            link.next_side(&mut stores, &set, new);
        }
    }
    Ok(Answer::stored(new, stores))
}

/// "DELVD unlinks from all paths, wipes, and returns the prior record on the
/// named path, or LKxx if there was none (table 5-3)."
pub fn del_vd(base: &DataBase, request: &Request) -> Result<Answer, Status> {
    let (set, slot) = variable_call(base, request)?;
    let named = ChainMaster::find(base, &set, slot, request.key)?;
    let record = referenced(&set, slot, request)?;
    let keys = record.keys();
    // "in DELVD an absent one is 16": the record is there, so its masters
    // should be.
    let masters = masters_on_paths(base, &set, slot, named, &keys);
    let masters = masters.map_err(|status| match set.fault {
        Some(Fault::AbsentIs12) => status,
        _ => Status::Damg,
    })?;
    let masters = masters.into_iter().enumerate();
    let links: Vec<Link> = masters.map(|on| Link::of(&record, on)).collect();
    let to_itself = links.iter().any(|link| link.prior == request.reference);
    let minded = set.fault == Some(Fault::SelfPointerDamage);
    refuse(to_itself && minded, Status::Damg)?;
    test_links(&links, &set, &keys)?;

    let mut stores = Stores::default();
    for link in &links {
        if link.slot != slot && set.fault == Some(Fault::OtherPathsStay) {
            continue;
        }
        link.prior_side(&mut stores, &set, link.next);
        link.next_side(&mut stores, &set, link.prior);
    }
    stores.wipe(&set, request.reference);
    let returned = match links[slot].prior {
        0 if set.fault != Some(Fault::ZeroForLink) => lk(set.entry.paths[slot].letters),
        prior => prior,
    };
    Ok(Answer::stored(returned, stores))
}

impl Position {
    /// Prior and next of the new record on the named path, unless it is linked
    /// last. Only ADDVA and ADDVB look at the referenced record.
    fn neighbours(
        self,
        set: &Set,
        slot: usize,
        request: &Request,
    ) -> Result<Option<(u32, u32)>, Status> {
        let record = || referenced(set, slot, request);
        Ok(match self {
            Position::Last => None,
            Position::After => Some((request.reference, record()?.next(slot))),
            Position::Before => Some((record()?.prior(slot), request.reference)),
        })
    }
}

/// The masters of all paths. "the other paths' masters in path order": the
/// named one has come before them all.
fn masters_on_paths<'a>(
    base: &DataBase<'a>,
    set: &Set,
    named_slot: usize,
    named: ChainMaster<'a>,
    keys: &[&[u8]],
) -> Result<Vec<ChainMaster<'a>>, Status> {
    keys.iter()
        .enumerate()
        .map(|(slot, key)| {
            if slot == named_slot {
                Ok(named)
            } else {
                ChainMaster::find(base, set, slot, key)
            }
        })
        .collect()
}

/// One path of a record that is linked or unlinked: its master, and its
/// neighbours on that path.
struct Link<'a> {
    slot: usize,
    master: ChainMaster<'a>,
    prior: u32,
    next: u32,
}

/// The final 16 of adds and DELVD, on every path. Of ADDVA and ADDVB the
/// reference is one of the neighbours here; it has been tested already, and
/// passes again.
fn test_links(links: &[Link], set: &Set, keys: &[&[u8]]) -> Result<(), Status> {
    for (link, key) in links.iter().zip(keys) {
        usable(set, link.slot, link.prior, key)?;
        usable(set, link.slot, link.next, key)?;
        link.master.ends_agree()?;
    }
    Ok(())
}

impl<'a> Link<'a> {
    /// After the last record of the chain, before none.
    fn last((slot, master): (usize, ChainMaster<'a>)) -> Link<'a> {
        Link {
            slot,
            master,
            prior: master.last(),
            next: 0,
        }
    }

    /// Between the neighbours that the record has.
    fn of(record: &Record, (slot, master): (usize, ChainMaster<'a>)) -> Link<'a> {
        Link {
            slot,
            master,
            prior: record.prior(slot),
            next: record.next(slot),
        }
    }

    /// "prior's side": what the record before has as its next. Where there is
    /// none, the master's first takes its place.
    fn prior_side(&self, stores: &mut Stores, set: &Set, after_prior: u32) {
        let masters = &self.master.set;
        if self.prior != 0 {
            let at = set.entry.next_at(self.slot);
            stores.pointer(set, self.prior, at, after_prior);
        } else {
            let at = masters.entry.first_at(self.master.linkage);
            stores.pointer(masters, self.master.number, at, after_prior);
        }
    }

    /// "next's side": what the record after has as its prior. Where there is
    /// none, the master's last takes its place.
    fn next_side(&self, stores: &mut Stores, set: &Set, before_next: u32) {
        let masters = &self.master.set;
        if self.next != 0 {
            let at = set.entry.prior_at(self.slot);
            stores.pointer(set, self.next, at, before_next);
        } else {
            let at = masters.entry.last_at(self.master.linkage);
            stores.pointer(masters, self.master.number, at, before_next);
        }
    }
}

/// The new record, written whole.
fn new_record(set: &Set, keys: &[&[u8]], links: &[Link], data: &[u8]) -> Vec<u8> {
    let entry = set.entry;
    let mut record = vec![0; entry.record_length()];
    record[STATE] = LIVE;
    for (link, key) in links.iter().zip(keys) {
        let (key_at, prior_at) = (entry.key_at(link.slot), entry.prior_at(link.slot));
        let next_at = entry.next_at(link.slot);
        record[key_at..prior_at].copy_from_slice(key);
        record[prior_at..next_at].copy_from_slice(&link.prior.to_be_bytes());
        record[next_at..next_at + 4].copy_from_slice(&link.next.to_be_bytes());
    }
    record[entry.data_at()..].copy_from_slice(data);
    record
}
