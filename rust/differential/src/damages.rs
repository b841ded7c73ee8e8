//! Every single damage to a data base.

use yarugota_model::{DataBase, Record, Schema, Set, BLOCK, STATE};
use yarugota_support::damage::{keys, pointers, reseal};

const CHECK: usize = 508;
const BLANK: u8 = 0x20;

/// Hands over the data base with one thing wrong: a state, a filler, a pointer
/// of any value that may matter, a key, a D byte, a leftover byte or a check.
/// The check of the damaged block is set right, and for one damage in three it
/// is left false as well.
pub fn every(schema: &Schema, base: &[u8], mut each: impl FnMut(&[u8])) {
    let mut count = 0;
    let mut both = |damaged: &mut Vec<u8>, offset: usize| {
        count += 1;
        if count % 3 == 0 {
            each(damaged);
        }
        reseal(damaged, offset / BLOCK);
        each(damaged);
    };
    let view = DataBase {
        schema,
        bytes: base,
    };
    for set in view.sets() {
        for (number, record) in set.records() {
            let offset = set.place.offset(number);
            for (at, bytes) in edits(&view, &set, number, &record) {
                let mut damaged = base.to_vec();
                damaged[offset + at..offset + at + bytes.len()].copy_from_slice(&bytes);
                both(&mut damaged, offset);
            }
        }
        for (damaged, offset) in beyond(&set, base) {
            both(&mut damaged.clone(), offset);
        }
    }
    for block in 0..base.len() / BLOCK {
        let mut damaged = base.to_vec();
        damaged[block * BLOCK + CHECK - 1] ^= 1;
        both(&mut damaged, block * BLOCK);
    }
    for block in 0..base.len() / BLOCK {
        let mut damaged = base.to_vec();
        damaged[block * BLOCK + CHECK] ^= 0x80;
        each(&damaged);
    }
}

/// Bytes to be written into a record, each with its place there.
fn edits(base: &DataBase, set: &Set, number: u32, record: &Record) -> Vec<(usize, Vec<u8>)> {
    let entry = set.entry;
    let mut edits: Vec<(usize, Vec<u8>)> = [0, 1, 2, 0x81, 0xFF]
        .map(|state| (STATE, vec![state]))
        .to_vec();
    edits.push((2, vec![1]));
    if entry.data_length > 0 {
        edits.push((entry.data_at(), vec![record.data()[0] ^ 1]));
    }
    if record.live() {
        for at in pointers(entry) {
            for pointer in values(base, number) {
                edits.push((at, pointer.to_be_bytes().to_vec()));
            }
        }
        for (at, length) in keys(entry) {
            edits.push((at, vec![BLANK; length]));
            edits.push((at, vec![0; length]));
            edits.push((at + length - 1, vec![record.bytes[at + length - 1] ^ 1]));
            for (_, other) in set.live_records() {
                edits.push((at, other.bytes[at..at + length].to_vec()));
            }
        }
    }
    edits.retain(|(at, bytes)| record.bytes[*at..at + bytes.len()] != bytes[..]);
    edits
}

/// Pointers to every record of the largest set, its own among them, to none,
/// above R, and far away.
fn values(base: &DataBase, own: u32) -> Vec<u32> {
    let sets = base.sets();
    let most = sets
        .map(|set| set.entry.records)
        .max()
        .unwrap_or(0)
        .max(own);
    let mut values: Vec<u32> = (0..=most + 1).collect();
    values.extend([65_536, 1 << 24, 0x8000_0001, u32::MAX]);
    values
}

/// A live copy in the place behind record R, and a pointer to it from each
/// field of each live record.
fn beyond(set: &Set, base: &[u8]) -> Vec<(Vec<u8>, usize)> {
    let (place, records) = (set.place, set.entry.records);
    let room = !(records as usize).is_multiple_of(place.records_per_block);
    let mut all = Vec::new();
    for (_, copied) in set.live_records().filter(|_| room) {
        let behind = place.offset(records + 1);
        let mut with_copy = base.to_vec();
        with_copy[behind..behind + place.record_length].copy_from_slice(copied.bytes);
        reseal(&mut with_copy, behind / BLOCK);
        for (number, _) in set.live_records() {
            for at in pointers(set.entry) {
                let offset = place.offset(number);
                let mut damaged = with_copy.clone();
                damaged[offset + at..offset + at + 4].copy_from_slice(&(records + 1).to_be_bytes());
                all.push((damaged, offset));
            }
        }
        all.push((with_copy, behind));
    }
    all
}
