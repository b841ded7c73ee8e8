//! What is done to a copy of the data base, or to a schema, before a call.

use yarugota_model::{seal, DataBase, Kind as SetKind, Schema, BLOCK};
use yarugota_support::damage::{
    change_byte, change_pointer, change_state, copy_record, flip_byte, keys, pointers, reseal,
    rubbish_block, some_record,
};
use yarugota_support::Random;

/// Kinds of damage.
#[derive(Clone, Copy, Debug, PartialEq, Eq, PartialOrd, Ord)]
pub enum Kind {
    /// One bit anywhere.
    Bit,
    /// One byte of a record.
    Byte,
    /// A pointer of any record.
    Pointer,
    /// A pointer of a live record, to a place that is nearly right.
    Live,
    State,
    /// A key, wholly or in one byte.
    Key,
    /// One record over another.
    Record,
    /// A block of rubbish.
    Block,
    /// A check, and nothing else.
    Check,
}

impl Kind {
    pub const ALL: [Kind; 9] = [
        Kind::Bit,
        Kind::Byte,
        Kind::Pointer,
        Kind::Live,
        Kind::State,
        Kind::Key,
        Kind::Record,
        Kind::Block,
        Kind::Check,
    ];

    pub fn name(self) -> &'static str {
        match self {
            Kind::Bit => "bit",
            Kind::Byte => "byte",
            Kind::Pointer => "pointer",
            Kind::Live => "pointer of a live record",
            Kind::State => "state",
            Kind::Key => "key",
            Kind::Record => "record",
            Kind::Block => "block",
            Kind::Check => "check",
        }
    }

    /// Pointers of live records come most often: the calls follow them.
    fn some(random: &mut Random) -> Kind {
        match random.below(3) {
            0 => Kind::Live,
            _ => *random.pick(&Kind::ALL),
        }
    }

    fn put(self, random: &mut Random, schema: &Schema, base: &mut [u8]) {
        match self {
            Kind::Bit => flip_byte(random, base),
            Kind::Byte => change_byte(random, schema, base),
            Kind::Pointer => change_pointer(random, schema, base),
            Kind::Live => change_live_pointer(random, schema, base),
            Kind::State => change_state(random, schema, base),
            Kind::Key => change_key(random, schema, base),
            Kind::Record => copy_record(random, schema, base),
            Kind::Block => rubbish_block(random, base),
            Kind::Check => change_check(random, base),
        }
    }
}

/// Damages a copy of a data base in one to four places and gives the kinds.
/// Where `checks_true`, the checks are set anew for what the blocks now hold;
/// else they stay as they were. A check that is itself damaged stays so.
pub fn damaged(
    random: &mut Random,
    schema: &Schema,
    base: &[u8],
    checks_true: bool,
) -> (Vec<u8>, Vec<Kind>) {
    let mut copy = base.to_vec();
    let kinds: Vec<Kind> = (0..random.between(1, 4))
        .map(|_| Kind::some(random))
        .collect();
    let (checks, others): (Vec<Kind>, Vec<Kind>) =
        kinds.iter().partition(|&&kind| kind == Kind::Check);
    for kind in others {
        kind.put(random, schema, &mut copy);
    }
    for block in 0..copy.len() / BLOCK {
        let check = block * BLOCK + BLOCK - 4..(block + 1) * BLOCK;
        match checks_true {
            true => reseal(&mut copy, block),
            false => copy[check.clone()].copy_from_slice(&base[check]),
        }
    }
    for kind in checks {
        kind.put(random, schema, &mut copy);
    }
    (copy, kinds)
}

/// Changes nothing where the set has no live record. A pointer to R + 1 may find
/// a live record there, in the room after record R or in the next set.
fn change_live_pointer(random: &mut Random, schema: &Schema, base: &mut [u8]) {
    let number = random.below(schema.entries.len());
    let set = DataBase {
        schema,
        bytes: base,
    }
    .set(number);
    let live: Vec<u32> = set.live_records().map(|(record, _)| record).collect();
    if live.is_empty() {
        return;
    }
    let record = *random.pick(&live);
    let place = set.place;
    let at = place.offset(record) + *random.pick(&pointers(set.entry));
    let above = set.entry.records + 1;
    let pointer = match random.below(4) {
        0 => 0,
        1 => above,
        2 => record,
        _ => *random.pick(&live),
    };
    if pointer == above && place.offset(above) + place.record_length <= base.len() {
        let other = place.offset(*random.pick(&live));
        base.copy_within(other..other + place.record_length, place.offset(above));
    }
    base[at..at + 4].copy_from_slice(&pointer.to_be_bytes());
}

/// The key of a record, or of one path of it: blank, another record's, or with
/// one byte changed.
fn change_key(random: &mut Random, schema: &Schema, base: &mut [u8]) {
    let (number, record) = some_record(random, schema);
    let entry = &schema.entries[number];
    let slot = match entry.kind {
        SetKind::Master => 0,
        SetKind::Variable => random.below(entry.paths.len()),
    };
    let (at, length) = keys(entry)[slot];
    let key = record + at..record + at + length;
    match random.below(3) {
        0 => base[key].fill(b' '),
        1 => {
            let other = random.between(1, entry.records as usize) as u32;
            let from = schema.layout.places[number].offset(other) + at;
            base.copy_within(from..from + length, key.start);
        }
        _ => base[key.start + random.below(length)] ^= 1 << random.below(8),
    }
}

fn change_check(random: &mut Random, base: &mut [u8]) {
    let block = random.below(base.len() / BLOCK);
    base[block * BLOCK + BLOCK - 1 - random.below(4)] ^= 1 << random.below(8);
}

/// The data base cut short, or with bytes after it.
pub fn other_length(random: &mut Random, base: &[u8]) -> Vec<u8> {
    let mut other = base.to_vec();
    match random.below(4) {
        0 => other.truncate(random.below(base.len())),
        1 => other.truncate(base.len() - BLOCK),
        2 => other.extend(random.bytes(BLOCK)),
        _ => {
            let more = random.between(1, 9);
            other.extend(random.bytes(more));
        }
    }
    other
}

/// A schema of rubbish, of another length, with one path over another, or with
/// some bytes changed. Its check is mostly set anew.
pub fn rubbish_schema(random: &mut Random, schema: &[u8]) -> Vec<u8> {
    let mut rubbish = schema.to_vec();
    let paths = paths_of(schema);
    match random.below(8) {
        0 => rubbish = random.bytes(BLOCK),
        1 => rubbish.truncate(random.below(BLOCK)),
        2 => rubbish.push(0),
        3 | 4 if !paths.is_empty() => {
            let (from, to) = (*random.pick(&paths), *random.pick(&paths));
            rubbish.copy_within(from..from + 8, to);
        }
        _ => {
            let used = 16 + 48 * usize::from(schema[1] + schema[2]);
            for _ in 0..random.between(1, 3) {
                rubbish[random.below(used)] = match random.once_in(2) {
                    true => random.byte(),
                    false => schema[random.below(used)],
                };
            }
        }
    }
    if !random.once_in(8) {
        seal(&mut rubbish, 0);
    }
    rubbish
}

/// Where the used path slots of a schema are.
fn paths_of(schema: &[u8]) -> Vec<usize> {
    let sets = usize::from(schema[1])..usize::from(schema[1] + schema[2]);
    let entries = sets.map(|set| 16 + 48 * set);
    entries
        .flat_map(|entry| {
            (0..usize::from(schema[entry + 5])).map(move |slot| entry + 16 + 8 * slot)
        })
        .collect()
}
