//! Random calls on a store.

use yarugota_model::reference::{lk, END};
use yarugota_model::{DataBase, Entry, Kind, Operation, Schema, Set};

use crate::{Call, Random};

/// Makes calls for one schema, with few keys for each master set, so that the
/// same keys come again and meet at their homes.
pub struct CallMaker<'a> {
    schema: &'a Schema,
    /// For each master set's entry.
    keys: Vec<Vec<Vec<u8>>>,
}

const BLANK: u8 = 0x20;

impl<'a> CallMaker<'a> {
    pub fn new(random: &mut Random, schema: &'a Schema) -> CallMaker<'a> {
        let masters = schema.entries.iter();
        let masters = masters.filter(|entry| entry.kind == Kind::Master);
        let keys = masters.map(|entry| keys_for(random, entry)).collect();
        CallMaker { schema, keys }
    }

    /// A call that is well made as far as names and lengths go, so that what
    /// the store holds decides the answer. It mostly fits what `base` holds.
    pub fn likely(&self, random: &mut Random, base: &[u8]) -> Call {
        let base = DataBase {
            schema: self.schema,
            bytes: base,
        };
        let operation = self.operation(random);
        match operation {
            Operation::Formt | Operation::Sinon => self.without_set(random, operation),
            Operation::Rdnxt => self.rdnxt(random),
            Operation::AddM
            | Operation::DelM
            | Operation::Readm
            | Operation::Writm
            | Operation::Rqloc => self.on_master(random, operation),
            _ => self.on_variable(random, operation, &base),
        }
    }

    /// A likely call with one or two of its parameters spoilt.
    pub fn faulty(&self, random: &mut Random, base: &[u8]) -> Call {
        self.faulty_up_to(2, random, base)
    }

    /// A likely call with one or more of its parameters spoilt.
    pub fn faulty_up_to(&self, most: usize, random: &mut Random, base: &[u8]) -> Call {
        let mut call = self.likely(random, base);
        for _ in 0..random.between(1, most) {
            self.spoil(random, &mut call);
        }
        call
    }

    /// Adds come most often, so that sets fill up.
    fn operation(&self, random: &mut Random) -> Operation {
        use Operation::*;
        if random.once_in(300) {
            return Formt;
        }
        let on_masters = [
            AddM, AddM, AddM, DelM, DelM, Readm, Writm, Rqloc, Rdnxt, Sinon,
        ];
        let on_variables = [
            Addvc, Addvc, Addvc, Addvb, Addvb, Addva, Addva, Delvd, Delvd, Readv, Readr, Readd,
            Writv,
        ];
        let no_variables = self.variable_sets().is_empty();
        if no_variables || random.below(5) < 2 {
            *random.pick(&on_masters)
        } else {
            *random.pick(&on_variables)
        }
    }

    fn variable_sets(&self) -> Vec<usize> {
        (self.keys.len()..self.schema.entries.len()).collect()
    }

    /// FORMT and SINON look at no other parameter, so anything will do.
    fn without_set(&self, random: &mut Random, operation: Operation) -> Call {
        Call {
            op: *operation.name(),
            set: [random.byte(); 4],
            reference: random.word(),
            path: [random.byte(); 8],
            key: some_bytes(random, 20),
            area: some_bytes(random, 20),
        }
    }

    fn rdnxt(&self, random: &mut Random) -> Call {
        let entry = random.pick(&self.schema.entries);
        Call {
            op: *Operation::Rdnxt.name(),
            set: entry.name,
            reference: random.between(0, entry.records as usize + 1) as u32,
            path: [random.byte(); 8],
            key: some_bytes(random, 20),
            area: random.bytes(entry.area_length()),
        }
    }

    fn on_master(&self, random: &mut Random, operation: Operation) -> Call {
        let number = random.below(self.keys.len());
        let entry = &self.schema.entries[number];
        let key = random.pick(&self.keys[number]).clone();
        let mut area = random.bytes(entry.area_length());
        area[..key.len()].copy_from_slice(&key);
        Call {
            op: *operation.name(),
            set: entry.name,
            reference: any_reference(random, entry),
            path: [random.byte(); 8],
            key,
            area,
        }
    }

    fn on_variable(&self, random: &mut Random, operation: Operation, base: &DataBase) -> Call {
        let number = *random.pick(&self.variable_sets());
        let set = base.set(number);
        let slot = random.below(set.entry.paths.len());
        let mut keys: Vec<Vec<u8>> = set
            .entry
            .paths
            .iter()
            .map(|path| self.master_key(random, base, path.master))
            .collect();
        let mut reference = any_reference(random, set.entry);
        if let Some(live) = some_live_record(random, &set) {
            if random.below(8) < 7 {
                reference = live;
            }
            if random.below(8) < 7 {
                let stored = set.record(live).keys();
                keys[slot] = stored[slot].to_vec();
                if operation == Operation::Writv {
                    keys = stored.into_iter().map(<[u8]>::to_vec).collect();
                }
            }
        }
        let starts_at_end = matches!(operation, Operation::Readv | Operation::Readr);
        if starts_at_end && random.once_in(3) {
            reference = lk(set.entry.paths[slot].letters);
        }
        let mut area = keys.concat();
        area.extend(random.bytes(set.entry.data_length));
        Call {
            op: *operation.name(),
            set: set.entry.name,
            reference,
            path: self.schema.path_name(&set.entry.paths[slot]),
            key: keys.swap_remove(slot),
            area,
        }
    }

    /// Mostly the key of a live master, if there is one, and often of the
    /// first one, so that its chains grow.
    fn master_key(&self, random: &mut Random, base: &DataBase, master: usize) -> Vec<u8> {
        let set = base.set(master);
        let live = if random.once_in(2) {
            set.live_records().next().map(|(number, _)| number)
        } else {
            some_live_record(random, &set)
        };
        match live {
            Some(live) if !random.once_in(12) => set.record(live).key().to_vec(),
            _ => random.pick(&self.keys[master]).clone(),
        }
    }

    fn spoil(&self, random: &mut Random, call: &mut Call) {
        match random.below(9) {
            0 => call.op = *random.pick(&[*b"SINOF", *b"     ", *b"READX", *b"ADDVC", *b"ADD-M"]),
            1 => call.set = *random.pick(&[*b"NONE", *b"    ", [0; 4]]),
            2 => call.set = random.pick(&self.schema.entries).name,
            3 => call.path = self.wrong_path(random, call.path),
            4 => spoil_length(random, &mut call.area),
            5 => spoil_length(random, &mut call.key),
            6 => spoil_bytes(random, &mut call.key),
            7 => spoil_bytes(random, &mut call.area),
            _ => {
                let entry = random.pick(&self.schema.entries);
                call.reference = any_reference(random, entry);
            }
        }
    }

    /// A path of any set, or one that is not quite the right name.
    fn wrong_path(&self, random: &mut Random, path: [u8; 8]) -> [u8; 8] {
        let paths = self.schema.entries.iter().flat_map(|entry| &entry.paths);
        let mut names: Vec<[u8; 8]> = paths.map(|path| self.schema.path_name(path)).collect();
        let mut bent = path;
        bent[random.below(8)] ^= 0x20;
        names.push(bent);
        *random.pick(&names)
    }
}

/// A few more keys than the set has records. Their words are few, so that sums
/// meet, and some are zero or nearly blank.
fn keys_for(random: &mut Random, entry: &Entry) -> Vec<Vec<u8>> {
    let count = (entry.records as usize).min(40) + random.between(2, 4);
    let mut keys: Vec<Vec<u8>> = Vec::new();
    while keys.len() < count {
        let words = entry.key_length / 4;
        let key: Vec<u8> = (0..words).flat_map(|_| key_word(random)).collect();
        let blank = key.iter().all(|&byte| byte == BLANK);
        if !blank && !keys.contains(&key) {
            keys.push(key);
        }
    }
    keys
}

fn key_word(random: &mut Random) -> [u8; 4] {
    match random.below(6) {
        0 => [BLANK, BLANK, BLANK, random.between(0x1F, 0x21) as u8],
        1 => [0, 0, 0, random.below(4) as u8],
        2 => [0xFF, 0xFF, 0xFF, random.between(0xF0, 0xFF) as u8],
        3 => random.word().to_be_bytes(),
        _ => [
            b'B',
            b'0',
            b'0' + random.below(10) as u8,
            b'0' + random.below(10) as u8,
        ],
    }
}

fn some_bytes(random: &mut Random, most: usize) -> Vec<u8> {
    let length = random.between(0, most);
    random.bytes(length)
}

fn some_live_record(random: &mut Random, set: &Set) -> Option<u32> {
    let live: Vec<u32> = set.live_records().map(|(number, _)| number).collect();
    (!live.is_empty()).then(|| *random.pick(&live))
}

/// Any sort of reference, mostly near 1..R.
fn any_reference(random: &mut Random, entry: &Entry) -> u32 {
    let records = entry.records;
    match random.below(12) {
        0 => END,
        1 => lk(*random.pick(&[*b"PT", *b"ZZ", *b"00"])),
        2 => entry.paths.first().map_or(0, |path| lk(path.letters)),
        3 => u32::MAX,
        4 => random.word(),
        _ => random.between(0, records as usize + 1) as u32,
    }
}

/// One byte more or less, or none at all.
fn spoil_length(random: &mut Random, bytes: &mut Vec<u8>) {
    match random.below(4) {
        0 => bytes.clear(),
        1 => bytes.push(BLANK),
        2 => bytes.extend([0; 4]),
        _ => {
            bytes.pop();
        }
    }
}

/// All blank, blank at its start, or one byte changed.
fn spoil_bytes(random: &mut Random, bytes: &mut [u8]) {
    let some = *random.pick(&[4, 8, 12, 16]).min(&bytes.len());
    match random.below(3) {
        0 => bytes.fill(BLANK),
        1 => bytes[..some].fill(BLANK),
        _ if bytes.is_empty() => {}
        _ => bytes[random.below(bytes.len())] ^= 1,
    }
}
