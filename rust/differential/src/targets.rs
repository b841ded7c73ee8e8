//! Stores with something in them, and every call that fits what they hold.

use yarugota_model::reference::lk;
use yarugota_model::{DataBase, Entry, Kind, Schema, Set};
use yarugota_support::schemas::{Draft, Master, Path, Variable};
use yarugota_support::stock::stocked;
use yarugota_support::{Call, Fixture};

/// The stores on which every single damage is tried.
pub fn stores() -> Vec<Fixture> {
    vec![stocked(), crowded(6), crowded(9), chained()]
}

/// One master set of nine records in three blocks, with two chains of
/// synonyms. Its keys are numbers, so key k has home 1 + k mod 9:
///
/// | record | key | home |
/// |--------|-----|------|
/// | 1 to 4 | 9, 18, 27, 36 | 1 |
/// | 5, 6   | 4, 13 | 5 |
/// | 7 to 9 | 45, 54, 63 | 1 |
///
/// Records 2, 3, 4 and 6 hold strangers for whoever has his home there. With
/// fewer than nine records the last ones are left out; with all nine the set
/// is full.
fn crowded(count: usize) -> Fixture {
    let draft = Draft {
        masters: vec![Master {
            name: *b"BOTL",
            key_length: 4,
            data_length: 150,
            records: 9,
        }],
        variables: Vec::new(),
    };
    let mut fixture = Fixture::formatted(&draft.encode());
    let keys = [9, 18, 27, 36, 4, 13, 45, 54, 63];
    for (key, record) in keys.into_iter().zip(1..).take(count) {
        let area = area(&[&number(key, 4)], 150, key as u8);
        fixture.on_set("ADD-M", "BOTL", 0, &area[..4], &area);
        let read = fixture.on_set("READM", "BOTL", 0, &area[..4], &area);
        assert_eq!(read.reference, record);
    }
    fixture
}

/// Two bottles, and five points, two to a block, each on two paths to bottles.
fn chained() -> Fixture {
    let path = |letters: &[u8; 2]| Path {
        letters: *letters,
        master: 0,
    };
    let draft = Draft {
        masters: vec![Master {
            name: *b"BOTL",
            key_length: 8,
            data_length: 300,
            records: 3,
        }],
        variables: vec![Variable {
            name: *b"PNTS",
            data_length: 200,
            records: 7,
            paths: vec![path(b"A1"), path(b"A2")],
        }],
    };
    let mut fixture = Fixture::formatted(&draft.encode());
    for key in [1, 4] {
        let area = area(&[&number(key, 8)], 300, key as u8);
        fixture.on_set("ADD-M", "BOTL", 0, &area[..8], &area);
    }
    for (point, keys) in [(1, 1), (1, 4), (1, 1), (4, 1), (1, 1)]
        .into_iter()
        .enumerate()
    {
        let area = area(&[&number(keys.0, 8), &number(keys.1, 8)], 200, point as u8);
        let added = fixture.on_path("ADDVC", "PNTS", 0, "BOTLLKA1", &area[..8], &area);
        assert_eq!(added.reference, point as u32 + 1);
    }
    fixture
}

fn number(number: u32, length: usize) -> Vec<u8> {
    let mut key = vec![0; length - 4];
    key.extend(number.to_be_bytes());
    key
}

fn area(keys: &[&[u8]], data_length: usize, data: u8) -> Vec<u8> {
    let mut area = keys.concat();
    area.resize(area.len() + data_length, data);
    area
}

/// Calls of every operation but FORMT: on every master there is, on one that
/// is not for each home, on every record, and from both ends of every chain.
pub fn calls_on(schema: &Schema, base: &[u8]) -> Vec<Call> {
    let base = DataBase {
        schema,
        bytes: base,
    };
    let mut calls = vec![Call::plain(b"SINON")];
    for set in base.sets() {
        for record in 0..=set.entry.records {
            let area = vec![0xA5; set.entry.area_length()];
            calls.push(call(b"RDNXT", &set.entry.name, record, None, b"", &area));
        }
        match set.entry.kind {
            Kind::Master => calls.extend(on_masters(&set)),
            Kind::Variable => calls.extend(on_variables(&base, &set)),
        }
    }
    calls
}

fn on_masters(set: &Set) -> Vec<Call> {
    let entry = set.entry;
    let held = keys_of(set);
    let mut keys = held.clone();
    keys.extend((1..=entry.records).map(|home| absent(entry, &held, home)));
    let mut calls = Vec::new();
    for key in &keys {
        let area = area(&[key], entry.data_length, 0x5A);
        for op in [b"ADD-M", b"DEL-M", b"READM", b"WRITM", b"RQLOC"] {
            calls.push(call(op, &entry.name, 7, None, key, &area));
        }
    }
    calls
}

/// A key of that home that is not among these.
fn absent(entry: &Entry, held: &[Vec<u8>], home: u32) -> Vec<u8> {
    let numbers = (0..).map(|turn| home - 1 + turn * entry.records);
    let mut keys = numbers.map(|at| number(at, entry.key_length));
    keys.find(|key| !held.contains(key)).expect("one of them")
}

fn keys_of(set: &Set) -> Vec<Vec<u8>> {
    let live = set.live_records();
    live.map(|(_, record)| record.key().to_vec()).collect()
}

fn on_variables(base: &DataBase, set: &Set) -> Vec<Call> {
    let mut calls = Vec::new();
    for slot in 0..set.entry.paths.len() {
        calls.extend(from_records(base, set, slot));
        calls.extend(from_ends(base, set, slot));
    }
    calls
}

/// On every record there is, by one of its paths.
fn from_records(base: &DataBase, set: &Set, slot: usize) -> Vec<Call> {
    let mut calls = Vec::new();
    for (record, stored) in set.live_records() {
        let keys = stored.keys();
        for op in [
            b"READV", b"READR", b"READD", b"WRITV", b"DELVD", b"ADDVA", b"ADDVB", b"ADDVC",
        ] {
            calls.push(on_path(base, set, slot, op, record, &keys));
        }
    }
    calls
}

/// From the ends of every chain of a path, empty ones too.
fn from_ends(base: &DataBase, set: &Set, slot: usize) -> Vec<Call> {
    let paths = &set.entry.paths;
    let firsts: Vec<Vec<u8>> = paths
        .iter()
        .map(|path| keys_of(&base.set(path.master)).into_iter().next())
        .map(|first| first.unwrap_or(vec![0; 4]))
        .collect();
    let mut calls = Vec::new();
    for key in keys_of(&base.set(paths[slot].master)) {
        let mut keys: Vec<&[u8]> = firsts.iter().map(Vec::as_slice).collect();
        keys[slot] = &key;
        let lengths = paths.iter().map(|path| path.key_length);
        if !keys.iter().map(|key| key.len()).eq(lengths) {
            continue;
        }
        for op in [b"READV", b"READR", b"ADDVC"] {
            let end = lk(paths[slot].letters);
            calls.push(on_path(base, set, slot, op, end, &keys));
        }
    }
    calls
}

/// A call that names a path, with these keys in its area.
fn on_path(
    base: &DataBase,
    set: &Set,
    slot: usize,
    op: &[u8; 5],
    reference: u32,
    keys: &[&[u8]],
) -> Call {
    let name = base.schema.path_name(&set.entry.paths[slot]);
    let area = area(keys, set.entry.data_length, 0x5A);
    call(
        op,
        &set.entry.name,
        reference,
        Some(name),
        keys[slot],
        &area,
    )
}

fn call(
    op: &[u8; 5],
    set: &[u8; 4],
    reference: u32,
    path: Option<[u8; 8]>,
    key: &[u8],
    area: &[u8],
) -> Call {
    Call {
        op: *op,
        set: *set,
        reference,
        path: path.unwrap_or(*b"        "),
        key: key.to_vec(),
        area: area.to_vec(),
    }
}
