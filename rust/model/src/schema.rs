//! The schema: one block, and every rule that it must keep.

use crate::block::{sealed, BLOCK, CHECK};
use crate::bytes::{all_zero, word};
use crate::fault::{share_linkages, Fault};
use crate::layout::Layout;

/// "Entries of 48 bytes start at 16"
const ENTRIES: usize = 16;
const ENTRY: usize = 48;

/// Within an entry, "four path slots of 8 bytes" come last.
const SLOTS: usize = 16;
const SLOT: usize = 8;

/// A schema that keeps every rule.
#[derive(Clone, Debug, PartialEq, Eq)]
pub struct Schema {
    /// The used entries, "masters first".
    pub entries: Vec<Entry>,
    pub layout: Layout,
    pub(crate) fault: Option<Fault>,
}

#[derive(Clone, Copy, Debug, PartialEq, Eq)]
pub enum Kind {
    Master,
    Variable,
}

/// One set.
#[derive(Clone, Debug, PartialEq, Eq)]
pub struct Entry {
    pub name: [u8; 4],
    pub kind: Kind,
    /// D
    pub data_length: usize,
    /// R
    pub records: u32,
    /// K, 0 for a variable set
    pub key_length: usize,
    /// The paths of a variable set, in slot order.
    pub paths: Vec<Path>,
    /// How many paths of all variable sets lead to this master set.
    pub paths_to_it: usize,
}

/// One path of a variable set.
#[derive(Clone, Debug, PartialEq, Eq)]
pub struct Path {
    /// xx
    pub letters: [u8; 2],
    /// The master's entry number.
    pub master: usize,
    /// The master's K.
    pub key_length: usize,
    /// Which of the paths to its master this is, counted from 0 "in schema
    /// order": entry by entry, and within an entry slot by slot.
    pub linkage: usize,
}

impl Schema {
    /// `None` is SCHM, "schema breaks a rule above".
    pub fn decode(buffer: &[u8]) -> Option<Schema> {
        Schema::decode_with(None, buffer)
    }

    pub(crate) fn decode_with(fault: Option<Fault>, buffer: &[u8]) -> Option<Schema> {
        // "a schema buffer not of 512 bytes, or with a false check, breaks a
        // rule"
        if !sealed(buffer, 0) {
            return None;
        }
        let (masters, variables) = header(buffer)?;
        let mut entries = decode_entries(buffer, masters, variables)?;
        let rules = names_distinct(&entries) && letters_distinct(fault, &entries, masters);
        if !rules {
            return None;
        }
        number_paths(&mut entries);
        if fault == Some(Fault::OneLinkage) {
            share_linkages(&mut entries);
        }
        let layout = Layout::of(&entries)?;
        Some(Schema {
            entries,
            layout,
            fault,
        })
    }

    /// T
    pub fn blocks(&self) -> usize {
        self.layout.blocks
    }

    /// "the data base has exactly 512 T bytes"
    pub fn base_length(&self) -> usize {
        self.blocks() * BLOCK
    }

    pub fn first_block(&self, entry: usize) -> Option<usize> {
        Some(self.layout.places.get(entry)?.first_block)
    }

    /// L
    pub fn record_length(&self, entry: usize) -> Option<usize> {
        Some(self.layout.places.get(entry)?.record_length)
    }

    pub fn records_per_block(&self, entry: usize) -> Option<usize> {
        Some(self.layout.places.get(entry)?.records_per_block)
    }

    /// The byte of the data base where that record starts. `None` if the entry
    /// is not used or the set has no such record.
    pub fn record_offset(&self, entry: usize, record: u32) -> Option<usize> {
        let used = self.entries.get(entry)?;
        let known = (1..=used.records).contains(&record);
        known.then(|| self.layout.places[entry].offset(record))
    }

    pub fn entry_named(&self, name: &[u8; 4]) -> Option<usize> {
        self.entries.iter().position(|entry| &entry.name == name)
    }

    /// "The path is named mmmmLKxx, mmmm the master."
    pub fn path_name(&self, path: &Path) -> [u8; 8] {
        let [a, b, c, d] = self.entries[path.master].name;
        let [x, y] = path.letters;
        [a, b, c, d, b'L', b'K', x, y]
    }

    /// The slot of the path of that name in the variable set.
    pub fn slot_named(&self, entry: &Entry, name: &[u8; 8]) -> Option<usize> {
        entry
            .paths
            .iter()
            .position(|path| &self.path_name(path) == name)
    }
}

/// "Byte 0 is 1; byte 1 is M, master sets, 1..4; byte 2 is V, variable sets,
/// 0..4; bytes 3..15 zero."
fn header(block: &[u8]) -> Option<(usize, usize)> {
    let masters = usize::from(block[1]);
    let variables = usize::from(block[2]);
    let kept = block[0] == 1
        && (1..=4).contains(&masters)
        && variables <= 4
        && all_zero(&block[3..ENTRIES]);
    kept.then_some((masters, variables))
}

/// "masters first; unused entries and the rest up to 507 are zero"
fn decode_entries(block: &[u8], masters: usize, variables: usize) -> Option<Vec<Entry>> {
    let used = ENTRIES + (masters + variables) * ENTRY;
    if !all_zero(&block[used..CHECK]) {
        return None;
    }
    block[ENTRIES..used]
        .chunks_exact(ENTRY)
        .enumerate()
        .map(|(number, entry)| {
            if number < masters {
                decode_master(entry)
            } else {
                decode_variable(entry, masters)
            }
        })
        .collect()
}

/// Kind 1, path count 0 and so no used slot, K one of "4, 8, 12 or 16".
fn decode_master(entry: &[u8]) -> Option<Entry> {
    let kept = entry[4] == 1
        && entry[5] == 0
        && matches!(entry[12], 4 | 8 | 12 | 16)
        && all_zero(&entry[SLOTS..]);
    if !kept {
        return None;
    }
    decode_common(entry, Kind::Master, Vec::new())
}

/// Kind 2, path count 1..4, K 0.
fn decode_variable(entry: &[u8], masters: usize) -> Option<Entry> {
    let kept = entry[4] == 2 && (1..=4).contains(&entry[5]) && entry[12] == 0;
    if !kept {
        return None;
    }
    let paths = decode_paths(&entry[SLOTS..], usize::from(entry[5]), masters)?;
    decode_common(entry, Kind::Variable, paths)
}

/// What both kinds of entry share.
fn decode_common(entry: &[u8], kind: Kind, paths: Vec<Path>) -> Option<Entry> {
    let name = [entry[0], entry[1], entry[2], entry[3]];
    let records = word(entry, 8);
    // "capital letter, then capitals or digits"; "record count R 8..11,
    // 1..65,535"; "13..15 zero"
    let kept = name[0].is_ascii_uppercase()
        && name.iter().all(capital_or_digit)
        && (1..=65_535).contains(&records)
        && all_zero(&entry[13..SLOTS]);
    kept.then(|| Entry {
        name,
        kind,
        data_length: usize::from(u16::from_be_bytes([entry[6], entry[7]])),
        records,
        key_length: usize::from(entry[12]),
        paths,
        paths_to_it: 0,
    })
}

/// "unused slots zero"
fn decode_paths(slots: &[u8], count: usize, masters: usize) -> Option<Vec<Path>> {
    let (used, unused) = slots.split_at(count * SLOT);
    if !all_zero(unused) {
        return None;
    }
    used.chunks_exact(SLOT)
        .map(|slot| decode_path(slot, masters))
        .collect()
}

/// "letters xx (capitals or digits), master entry number (one byte, 0..M-1),
/// five zeros"
fn decode_path(slot: &[u8], masters: usize) -> Option<Path> {
    let letters = [slot[0], slot[1]];
    let master = usize::from(slot[2]);
    let kept = letters.iter().all(capital_or_digit) && master < masters && all_zero(&slot[3..]);
    kept.then_some(Path {
        letters,
        master,
        key_length: 0,
        linkage: 0,
    })
}

fn capital_or_digit(byte: &u8) -> bool {
    byte.is_ascii_uppercase() || byte.is_ascii_digit()
}

/// "all distinct": over masters and variables together.
fn names_distinct(entries: &[Entry]) -> bool {
    distinct(entries.iter().map(|entry| entry.name))
}

/// "No two paths of one variable set share xx; no two paths to one master do."
fn letters_distinct(fault: Option<Fault>, entries: &[Entry], masters: usize) -> bool {
    let within_sets = entries
        .iter()
        .all(|entry| distinct(entry.paths.iter().map(|path| path.letters)));
    let among_paths_to_one_master = (0..masters).all(|master| {
        let paths = entries.iter().flat_map(|entry| &entry.paths);
        let to_it = paths.filter(|path| path.master == master);
        distinct(to_it.map(|path| path.letters))
    });
    within_sets && (among_paths_to_one_master || fault == Some(Fault::LettersOfTwoSets))
}

fn distinct<T: PartialEq>(values: impl Iterator<Item = T>) -> bool {
    let values: Vec<T> = values.collect();
    let repeated = |(at, value)| values[..at].contains(value);
    !values.iter().enumerate().any(repeated)
}

/// Tells each path its master's key length and its place among the paths to
/// that master, and each master how many paths lead to it.
fn number_paths(entries: &mut [Entry]) {
    for set in 0..entries.len() {
        for slot in 0..entries[set].paths.len() {
            let master = &mut entries[entries[set].paths[slot].master];
            let key_length = master.key_length;
            let linkage = master.paths_to_it;
            master.paths_to_it += 1;
            let path = &mut entries[set].paths[slot];
            path.key_length = key_length;
            path.linkage = linkage;
        }
    }
}
