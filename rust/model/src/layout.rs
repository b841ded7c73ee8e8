//! Where the records of each set lie: within a record its fields, within the
//! data base its block and byte.

use crate::block::{BLOCK, CHECK};
use crate::schema::{Entry, Kind};

/// "at most 4,096"
const MOST_BLOCKS: usize = 4096;

/// Every record starts with "state byte (1 live), three zeros".
pub const STATE: usize = 0;
pub const FILLER: std::ops::Range<usize> = 1..4;

/// "Master record: [...] ROOT next, ROOT prior (4 each); key"
pub const ROOT_NEXT: usize = 4;
pub const ROOT_PRIOR: usize = 8;
pub const MASTER_KEY: usize = 12;

/// A variable record's paths follow its state.
const FIRST_PATH: usize = 4;

/// Two pointers of 4 bytes each: first and last of a path in a master record,
/// prior and next of a path in a variable record.
const POINTERS: usize = 8;

/// Where the fields of a set's records are.
impl Entry {
    /// In a master record: "per path to it, in schema order, first and last".
    pub fn first_at(&self, linkage: usize) -> usize {
        MASTER_KEY + self.key_length + linkage * POINTERS
    }

    pub fn last_at(&self, linkage: usize) -> usize {
        self.first_at(linkage) + 4
    }

    /// In a variable record: "per path key, prior, next".
    pub fn key_at(&self, slot: usize) -> usize {
        let before = self.paths[..slot].iter();
        FIRST_PATH + before.map(|path| path.key_length + POINTERS).sum::<usize>()
    }

    pub fn prior_at(&self, slot: usize) -> usize {
        self.key_at(slot) + self.paths[slot].key_length
    }

    pub fn next_at(&self, slot: usize) -> usize {
        self.prior_at(slot) + 4
    }

    /// In both kinds the D bytes come last.
    pub fn data_at(&self) -> usize {
        match self.kind {
            Kind::Master => self.first_at(self.paths_to_it),
            Kind::Variable => self.key_at(self.paths.len()),
        }
    }

    /// L
    pub fn record_length(&self) -> usize {
        self.data_at() + self.data_length
    }

    /// The lengths of the keys in the area: "for a master, key then D bytes;
    /// for a variable, its keys in path order, then D bytes".
    fn area_key_lengths(&self) -> Vec<usize> {
        match self.kind {
            Kind::Master => vec![self.key_length],
            Kind::Variable => self.paths.iter().map(|path| path.key_length).collect(),
        }
    }

    pub fn area_length(&self) -> usize {
        self.area_key_lengths().iter().sum::<usize>() + self.data_length
    }

    /// An area of the right length, taken apart into its keys and its D bytes.
    pub fn split_area<'a>(&self, area: &'a [u8]) -> (Vec<&'a [u8]>, &'a [u8]) {
        let mut rest = area;
        let mut keys = Vec::new();
        for length in self.area_key_lengths() {
            let (key, after) = rest.split_at(length);
            keys.push(key);
            rest = after;
        }
        (keys, rest)
    }
}

/// Where all sets lie in the data base.
#[derive(Clone, Debug, PartialEq, Eq)]
pub struct Layout {
    /// One for each entry.
    pub places: Vec<Place>,
    /// T
    pub blocks: usize,
}

/// Where one set lies.
#[derive(Clone, Copy, Debug, PartialEq, Eq)]
pub struct Place {
    pub first_block: usize,
    pub blocks: usize,
    /// L
    pub record_length: usize,
    pub records_per_block: usize,
}

impl Layout {
    /// "Sets lie in the data base in entry order, each from a fresh block".
    /// `None` if a record or all sets together are too large.
    pub fn of(entries: &[Entry]) -> Option<Layout> {
        let mut places = Vec::new();
        let mut blocks = 0;
        for entry in entries {
            let place = Place::of(entry, blocks)?;
            blocks += place.blocks;
            places.push(place);
        }
        (blocks <= MOST_BLOCKS).then_some(Layout { places, blocks })
    }
}

impl Place {
    /// "floor(508/L) whole records to a block, L the record length, at most
    /// 508"
    fn of(entry: &Entry, first_block: usize) -> Option<Place> {
        let record_length = entry.record_length();
        if record_length > CHECK {
            return None;
        }
        let records_per_block = CHECK / record_length;
        Some(Place {
            first_block,
            blocks: (entry.records as usize).div_ceil(records_per_block),
            record_length,
            records_per_block,
        })
    }

    /// The byte of the data base where a record starts. "Records count from 1
    /// in each set."
    pub fn offset(&self, record: u32) -> usize {
        let index = record as usize - 1;
        let block = self.first_block + index / self.records_per_block;
        block * BLOCK + index % self.records_per_block * self.record_length
    }
}
