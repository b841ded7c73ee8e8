//! "Where masters live": homes, and how a key is found.

use crate::bytes::wrapping_sum;
use crate::database::Set;
use crate::fault::{unwrapped_home, Fault};
use crate::status::Status;

/// "home = 1 + (wrapping 32-bit sum of the key's words) mod R". R is at
/// least 1.
pub fn home(key: &[u8], records: u32) -> u32 {
    1 + wrapping_sum(0, key) % records
}

/// What looking for a key comes to, if no damage is met.
#[derive(Clone, Copy, Debug, PartialEq, Eq)]
pub enum Search {
    Found(u32),
    /// Absent: its home is free.
    HomeFree,
    /// Absent: its home is held by a record of another home, a stranger.
    HomeHeldByStranger,
    /// Absent: the chain of its home ends at this record without it.
    ChainEndsAt(u32),
}

impl<'a> Set<'a> {
    pub fn home(&self, key: &[u8]) -> u32 {
        if self.fault == Some(Fault::SumNotWrapped) {
            return unwrapped_home(key, self.entry.records);
        }
        home(key, self.entry.records)
    }
}

/// Looks for a key in a master set.
///
/// A record on the way may have any home and any ROOT prior; only what makes
/// going on impossible is damage. A key met before the damage is found.
pub fn find(set: &Set, key: &[u8]) -> Result<Search, Status> {
    // "If that record is free, or its own home differs, the key is absent."
    let home = set.home(key);
    let Some(mut record) = set.live_record(home) else {
        return Ok(Search::HomeFree);
    };
    if set.home(record.key()) != home {
        return Ok(Search::HomeHeldByStranger);
    }
    // "Else follow ROOT next until the key or 0. A pointer above R, a free
    // record on the way, or more than R records visited is damage." The home
    // is the first record visited.
    let mut number = home;
    let most = set.entry.records - u32::from(set.fault == Some(Fault::ChainOfR));
    for _visited in 1..=most {
        if record.key() == key {
            return Ok(Search::Found(number));
        }
        let next = record.root_next();
        if next == 0 {
            return Ok(Search::ChainEndsAt(number));
        }
        record = set.live_record(next).ok_or(Status::Damg)?;
        if set.fault == Some(Fault::HomeOnTheWay) && set.home(record.key()) != home {
            return Err(Status::Damg);
        }
        number = next;
    }
    Err(Status::Damg)
}

/// The number of the master of that key: 16 for damage met, "then 12".
pub fn find_master(set: &Set, key: &[u8]) -> Result<u32, Status> {
    match find(set, key)? {
        Search::Found(number) => Ok(number),
        _ => Err(Status::Mrnf),
    }
}
