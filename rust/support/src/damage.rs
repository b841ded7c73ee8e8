//! Damage done to a data base from outside.

use yarugota_model::{seal, Entry, Kind, Schema, BLOCK, MASTER_KEY, ROOT_NEXT, ROOT_PRIOR, STATE};

use crate::Random;

/// Damages a data base of the right length in one place. The check is mostly
/// set right again, so that the damage lies in what the records say.
pub fn damage(random: &mut Random, schema: &Schema, base: &mut [u8]) {
    match random.below(10) {
        0 => flip_byte(random, base),
        1 => rubbish_block(random, base),
        2 | 3 => change_state(random, schema, base),
        4 => copy_record(random, schema, base),
        5 => change_byte(random, schema, base),
        _ => change_pointer(random, schema, base),
    }
}

/// Fills a data base with random bytes, under true checks or false ones.
pub fn rubbish(random: &mut Random, base: &mut [u8]) {
    base.fill_with(|| random.byte());
    if random.once_in(2) {
        for block in 0..base.len() / BLOCK {
            reseal(base, block);
        }
    }
}

/// One byte anywhere, and the check as it was.
pub fn flip_byte(random: &mut Random, base: &mut [u8]) {
    let at = random.below(base.len());
    base[at] ^= 1 << random.below(8);
}

/// A whole block.
pub fn rubbish_block(random: &mut Random, base: &mut [u8]) {
    let block = random.below(base.len() / BLOCK);
    let bytes = &mut base[block * BLOCK..(block + 1) * BLOCK];
    bytes.fill_with(|| random.byte());
    reseal(base, block);
}

/// The state of a record: free, live, or neither.
pub fn change_state(random: &mut Random, schema: &Schema, base: &mut [u8]) {
    let (_, offset) = some_record(random, schema);
    base[offset + STATE] = *random.pick(&[0, 1, 1, 2, 0xFF]);
    reseal(base, offset / BLOCK);
}

/// Any byte of a record: state, filler, pointer, key or D byte.
pub fn change_byte(random: &mut Random, schema: &Schema, base: &mut [u8]) {
    let (entry, offset) = some_record(random, schema);
    let at = random.below(schema.entries[entry].record_length());
    base[offset + at] = random.byte();
    reseal(base, offset / BLOCK);
}

/// One record of a set over another.
pub fn copy_record(random: &mut Random, schema: &Schema, base: &mut [u8]) {
    let (entry, from) = some_record(random, schema);
    let to = some_record_of(random, schema, entry);
    let length = schema.entries[entry].record_length();
    base.copy_within(from..from + length, to);
    reseal(base, to / BLOCK);
}

/// A pointer to anywhere in 0..R, or just above it, or far away.
pub fn change_pointer(random: &mut Random, schema: &Schema, base: &mut [u8]) {
    let (number, offset) = some_record(random, schema);
    let entry = &schema.entries[number];
    let at = offset + *random.pick(&pointers(entry));
    let target = some_target(random, schema, entry);
    let pointer = match random.below(12) {
        0 => random.word(),
        1 => target + 1,
        _ => random.between(0, target as usize) as u32,
    };
    base[at..at + 4].copy_from_slice(&pointer.to_be_bytes());
    reseal(base, offset / BLOCK);
}

/// R of a set that pointers of this set's records may lead into.
fn some_target(random: &mut Random, schema: &Schema, entry: &Entry) -> u32 {
    if random.once_in(2) {
        entry.records
    } else {
        random.pick(&schema.entries).records
    }
}

/// Where the pointers of a set's records are.
pub fn pointers(entry: &Entry) -> Vec<usize> {
    match entry.kind {
        Kind::Master => {
            let linkages = 0..entry.paths_to_it;
            let ends = linkages.flat_map(|at| [entry.first_at(at), entry.last_at(at)]);
            [ROOT_NEXT, ROOT_PRIOR].into_iter().chain(ends).collect()
        }
        Kind::Variable => (0..entry.paths.len())
            .flat_map(|slot| [entry.prior_at(slot), entry.next_at(slot)])
            .collect(),
    }
}

/// Where the keys of a set's records are, and their lengths.
pub fn keys(entry: &Entry) -> Vec<(usize, usize)> {
    match entry.kind {
        Kind::Master => vec![(MASTER_KEY, entry.key_length)],
        Kind::Variable => (0..entry.paths.len())
            .map(|slot| (entry.key_at(slot), entry.paths[slot].key_length))
            .collect(),
    }
}

/// The entry and the offset of some record.
pub fn some_record(random: &mut Random, schema: &Schema) -> (usize, usize) {
    let entry = random.below(schema.entries.len());
    (entry, some_record_of(random, schema, entry))
}

fn some_record_of(random: &mut Random, schema: &Schema, entry: usize) -> usize {
    let record = random.between(1, schema.entries[entry].records as usize);
    schema.layout.places[entry].offset(record as u32)
}

/// Sets the check of a block right.
pub fn reseal(base: &mut [u8], block: usize) {
    let bytes = &mut base[block * BLOCK..(block + 1) * BLOCK];
    seal(bytes, block as u32);
}
