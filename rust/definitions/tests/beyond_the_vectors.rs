//! Clauses of document 01 that no call of the vectors decides: taking one of
//! them out of the definitions changes no answer there. Each is tried here on
//! the small store of document 01, with BOTL in block 0 and PNTS in block 1.

use yarugota_definitions::program::Program;
use yarugota_definitions::rooms::Rooms;
use yarugota_definitions::store::{read_definitions, Call, Store};

const DONE: u64 = 0;
const SCHM: u64 = 1;
const SIZE: u64 = 2;
const DAMG: u64 = 16;

/// LKPT as a reference.
const LKPT: u32 = 0x4C4B_5054;

/// Fields of a BOTL record.
const ROOT_NEXT: usize = 4;
const ROOT_PRIOR: usize = 8;
const KEY: usize = 12;
const FIRST: usize = 16;
const LAST: usize = 20;

/// Fields of a PNTS record.
const POINT_KEY: usize = 4;
const POINT_NEXT: usize = 12;

/// Bad pointers into BOTL: to a free record, and above R.
const FREE: u32 = 5;
const ABOVE_R: u32 = 6;

/// Where a record of BOTL begins, and one of PNTS.
fn bottle(record: usize) -> usize {
    (record - 1) * 28
}

fn point(record: usize) -> usize {
    512 + (record - 1) * 20
}

/// Sets the check of a block: the wrapping sum of its number and its words.
fn seal(block: &mut [u8], number: u32) {
    let (words, check) = block.split_at_mut(508);
    let words = words.chunks(4).map(|word| word.try_into().unwrap());
    let sum = words
        .map(u32::from_be_bytes)
        .fold(number, u32::wrapping_add);
    check.copy_from_slice(&sum.to_be_bytes());
}

/// BOTL, and variable sets of D 4 with one path each: name, R and letters.
fn schema(points: &[(&[u8; 4], u32, &[u8; 2])]) -> Vec<u8> {
    let mut schema = vec![1, 1, points.len() as u8];
    schema.resize(16, 0);
    schema.extend(b"BOTL\x01\x00\x00\x04\x00\x00\x00\x05\x04");
    schema.resize(64, 0);
    for (name, records, letters) in points {
        let end = schema.len() + 48;
        schema.extend(*name);
        schema.extend([2, 1, 0, 4]);
        schema.extend(records.to_be_bytes());
        schema.extend([0; 4]);
        schema.extend(*letters);
        schema.resize(end, 0);
    }
    schema.resize(512, 0);
    seal(&mut schema, 0);
    schema
}

struct SmallStore<'p> {
    store: Store<'p>,
    schema: Vec<u8>,
    base: Vec<u8>,
}

impl<'p> SmallStore<'p> {
    /// B001 at its home 2 and its synonym B006 at 1, as in document 01.
    fn with_two_bottles(program: &'p Program) -> SmallStore<'p> {
        let mut small = SmallStore {
            store: Store::new(program).unwrap(),
            schema: schema(&[(b"PNTS", 6, b"PT")]),
            base: vec![0; 1024],
        };
        assert_eq!(small.call("FORMT", "    ", 0, "", ""), DONE);
        assert_eq!(small.call("ADD-M", "BOTL", 0, "B001", "B001NECK"), DONE);
        assert_eq!(small.call("ADD-M", "BOTL", 0, "B006", "B006NECK"), DONE);
        small
    }

    fn add_point(&mut self, key: &str) {
        let area = format!("{key}p001");
        assert_eq!(self.call("ADDVC", "PNTS", LKPT, key, &area), DONE);
    }

    /// The status of a call, which changes the data base if it is done.
    fn call(&mut self, op: &str, set: &str, reference: u32, key: &str, area: &str) -> u64 {
        let call = Call {
            operation: op.into(),
            set: set.into(),
            reference,
            path: b"BOTLLKPT".to_vec(),
            key: key.into(),
            area: area.into(),
        };
        let outcome = self.store.call(&call, &self.schema, &self.base).unwrap();
        self.base = outcome.base;
        outcome.status
    }

    fn sinon(&mut self) -> u64 {
        self.call("SINON", "    ", 0, "", "")
    }

    /// Other bytes at a place, under a true check.
    fn poke(&mut self, at: usize, bytes: &[u8]) {
        self.base[at..at + bytes.len()].copy_from_slice(bytes);
        let number = at / 512;
        let block = &mut self.base[number * 512..][..512];
        seal(block, number as u32);
    }

    fn poke_pointer(&mut self, at: usize, pointer: u32) {
        self.poke(at, &pointer.to_be_bytes());
    }

    /// Makes the room behind a set's last record look like a live record.
    fn live_beyond_the_set(&mut self, place: usize) {
        self.poke(place, &[1]);
    }
}

fn definitions() -> Program {
    read_definitions(&Rooms::ours()).unwrap_or_else(|fault| panic!("{fault}"))
}

/// The status of FORMT on a data base of no bytes: SIZE if the schema is good.
fn formt_under(program: &Program, schema: &[u8]) -> u64 {
    let call = Call {
        operation: b"FORMT".to_vec(),
        set: b"    ".to_vec(),
        reference: 0,
        path: b"        ".to_vec(),
        key: Vec::new(),
        area: Vec::new(),
    };
    let store = Store::new(program).unwrap();
    store.call(&call, schema, &[]).unwrap().status
}

// "record count R 8..11, 1..65,535"; case i of "Small store, worked"
#[test]
fn the_most_records() {
    let program = definitions();
    let with = |records| formt_under(&program, &schema(&[(b"PNTS", records, b"PT")]));
    assert_eq!(with(65_535), SIZE);
    assert_eq!(with(65_536), SCHM);
}

// "no two paths to one master do": in two sets
#[test]
fn letters_shared_by_paths_of_two_sets_to_one_master() {
    let program = definitions();
    let with = |letters| {
        let schema = schema(&[(b"PNTS", 6, b"PT"), (b"PNT2", 6, letters)]);
        formt_under(&program, &schema)
    };
    assert_eq!(with(b"QT"), SIZE);
    assert_eq!(with(b"PT"), SCHM);
}

// "path count byte 5 (0 for a master ..)": also where the path is well made
#[test]
fn a_master_with_a_path() {
    let mut schema = schema(&[(b"PNTS", 6, b"PT")]);
    assert_eq!(formt_under(&definitions(), &schema), SIZE);
    schema[16 + 5] = 1;
    schema[32..34].copy_from_slice(b"QT");
    seal(&mut schema, 0);
    assert_eq!(formt_under(&definitions(), &schema), SCHM);
}

// "the ROOT prior .. of the record DEL-M finds away from its home, is 0"
#[test]
fn a_synonym_without_its_prior_is_not_deleted() {
    let program = definitions();
    let mut small = SmallStore::with_two_bottles(&program);
    small.poke_pointer(bottle(1) + ROOT_PRIOR, 0);
    assert_eq!(small.call("DEL-M", "BOTL", 0, "B006", ""), DAMG);
    small.poke_pointer(bottle(1) + ROOT_PRIOR, 2);
    assert_eq!(small.call("DEL-M", "BOTL", 0, "B006", ""), DONE);
}

// "DEL-M, prior and next of the record and next of a synonym that moves";
// "ADD-M, the stranger's prior and next". B006 is the record away from home,
// the synonym that moves, and the stranger at the home of B005.
#[test]
fn a_bad_neighbour_on_a_root_chain() {
    let program = definitions();
    let tries = [
        ("DEL-M", "B006", 1, ROOT_PRIOR),
        ("DEL-M", "B006", 1, ROOT_NEXT),
        ("DEL-M", "B001", 2, ROOT_PRIOR),
        ("DEL-M", "B001", 2, ROOT_NEXT),
        ("DEL-M", "B001", 1, ROOT_NEXT),
        ("ADD-M", "B005", 1, ROOT_PRIOR),
        ("ADD-M", "B005", 1, ROOT_NEXT),
    ];
    for (op, key, record, field) in tries {
        let area = format!("{key}NECK");
        let mut small = SmallStore::with_two_bottles(&program);
        small.live_beyond_the_set(bottle(6));
        for bad in [FREE, ABOVE_R] {
            small.poke_pointer(bottle(record) + field, bad);
            let status = small.call(op, "BOTL", 0, key, &area);
            assert_eq!(status, DAMG, "{op} {key}: {bad} in record {record}");
        }
    }
}

// .. and of no other record: not of the one behind a record away from home
#[test]
fn a_bad_pointer_that_is_not_used() {
    let program = definitions();
    let mut small = SmallStore::with_two_bottles(&program);
    assert_eq!(small.call("ADD-M", "BOTL", 0, "B00;", "B00;NECK"), DONE);
    small.poke_pointer(bottle(3) + ROOT_NEXT, FREE);
    assert_eq!(small.call("DEL-M", "BOTL", 0, "B006", ""), DONE);
}

// "A pointer above R .. is damage": also where the place there looks live
#[test]
fn a_search_does_not_leave_the_set() {
    let program = definitions();
    let mut small = SmallStore::with_two_bottles(&program);
    small.live_beyond_the_set(bottle(6));
    small.poke(bottle(6) + KEY, b"B00;");
    small.poke_pointer(bottle(1) + ROOT_NEXT, ABOVE_R);
    let status = small.call("READM", "BOTL", 0, "B00;", "........");
    assert_eq!(status, DAMG);
}

// ".. is above R": also where the place there looks live and of that key
#[test]
fn a_read_does_not_leave_the_set() {
    let program = definitions();
    let mut small = SmallStore::with_two_bottles(&program);
    small.add_point("B001");
    small.live_beyond_the_set(point(7));
    small.poke(point(7) + POINT_KEY, b"B001");
    small.poke_pointer(point(1) + POINT_NEXT, 7);
    assert_eq!(small.call("READV", "PNTS", 1, "B001", "........"), DAMG);
}

// "first and last are one 0 and one not, tested .. on the named path by READV
// and READR with LKxx"
#[test]
fn one_end_of_a_chain_is_missing() {
    let program = definitions();
    for end in [FIRST, LAST] {
        let mut small = SmallStore::with_two_bottles(&program);
        small.add_point("B001");
        small.poke_pointer(bottle(2) + end, 0);
        for read in ["READV", "READR"] {
            assert_eq!(small.call(read, "PNTS", LKPT, "B001", "........"), DAMG);
            assert_eq!(small.call(read, "PNTS", 1, "B001", "........"), DONE);
        }
    }
}

// "each path of each master one two-way chain from first to last"
#[test]
fn a_chain_that_does_not_end_at_last_is_not_sound() {
    let program = definitions();
    let mut small = SmallStore::with_two_bottles(&program);
    small.add_point("B001");
    small.add_point("B001");
    assert_eq!(small.sinon(), DONE);
    small.poke_pointer(bottle(2) + LAST, 1);
    assert_eq!(small.sinon(), DAMG);
}

// "holding exactly the live records of that key": none of another key
#[test]
fn a_chain_with_a_point_of_another_key_is_not_sound() {
    let program = definitions();
    let mut small = SmallStore::with_two_bottles(&program);
    small.add_point("B006");
    assert_eq!(small.sinon(), DONE);
    small.poke_pointer(bottle(2) + FIRST, 1);
    small.poke_pointer(bottle(2) + LAST, 1);
    assert_eq!(small.sinon(), DAMG);
}

// "live master keys distinct"
#[test]
fn a_repeated_master_key_is_not_sound() {
    let program = definitions();
    let mut small = SmallStore::with_two_bottles(&program);
    assert_eq!(small.sinon(), DONE);
    small.poke(bottle(1) + KEY, b"B001");
    assert_eq!(small.sinon(), DAMG);
}
