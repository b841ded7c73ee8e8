//! "Small store, worked": its sizes, and the cases a to j.

use yarugota_model::console::small_store;
use yarugota_model::{home, seal, Schema, Status};
use yarugota_support::{Fixture, Random};

fn small() -> Fixture {
    Fixture::formatted(&small_store())
}

fn add(fixture: &mut Fixture, key: &[u8; 4]) -> Status {
    let area = [key.as_slice(), b"NECK"].concat();
    fixture.on_set("ADD-M", "BOTL", 0, key, &area).status
}

/// The record that holds a bottle.
fn place_of(fixture: &mut Fixture, key: &[u8; 4]) -> u32 {
    let read = fixture.on_set("READM", "BOTL", 0, key, &[0; 8]);
    assert_eq!(read.status, Status::Done);
    assert_eq!(read.area, [key.as_slice(), b"NECK"].concat());
    read.reference
}

fn is_free(fixture: &Fixture, record: u32) -> bool {
    let record = fixture.view().set(0).record(record);
    record.bytes.iter().all(|&byte| byte == 0)
}

/// The small store with another R for PNTS.
fn with_points(records: u32) -> Vec<u8> {
    let mut schema = small_store().to_vec();
    schema[72..76].copy_from_slice(&records.to_be_bytes());
    seal(&mut schema, 0);
    schema
}

#[test]
fn sizes() {
    let schema = Schema::decode(&small_store()).unwrap();
    assert_eq!(schema.record_length(0), Some(28));
    assert_eq!(schema.record_length(1), Some(20));
    assert_eq!(schema.blocks(), 2);
    assert_eq!(schema.records_per_block(0), Some(18));
    assert_eq!(schema.records_per_block(1), Some(25));
    assert_eq!(schema.first_block(1), Some(1));
    assert_eq!(schema.record_offset(0, 5), Some(112));
    assert_eq!(schema.record_offset(1, 6), Some(612));
}

#[test]
fn cases_a_b_c_homes() {
    let mut fixture = small();
    for (key, expected) in [(b"B001", 2), (b"B006", 2), (b"B005", 1)] {
        assert_eq!(home(key, 5), expected);
        let located = fixture.on_set("RQLOC", "BOTL", 0, key, b"");
        assert_eq!(
            (located.status, located.reference),
            (Status::Done, expected)
        );
    }
}

#[test]
fn cases_d_e_f_g_masters_move() {
    let mut fixture = small();
    // d)
    assert_eq!(add(&mut fixture, b"B001"), Status::Done);
    assert_eq!(place_of(&mut fixture, b"B001"), 2);
    // e)
    assert_eq!(add(&mut fixture, b"B006"), Status::Done);
    assert_eq!(place_of(&mut fixture, b"B006"), 1);
    // f)
    assert_eq!(add(&mut fixture, b"B005"), Status::Done);
    assert_eq!(place_of(&mut fixture, b"B005"), 1);
    assert_eq!(place_of(&mut fixture, b"B006"), 3);
    assert_eq!(fixture.sinon(), Status::Done);
    // g)
    let deleted = fixture.on_set("DEL-M", "BOTL", 0, b"B001", b"");
    assert_eq!(deleted.status, Status::Done);
    assert_eq!(place_of(&mut fixture, b"B006"), 2);
    assert!(is_free(&fixture, 3));
    assert_eq!(fixture.sinon(), Status::Done);
}

#[test]
fn case_h_the_sum_wraps() {
    let key = [0xFF, 0xFF, 0xFF, 0xFF, 0, 0, 0, 2];
    assert_eq!(home(&key, 5), 2);
}

#[test]
fn case_i_the_largest_record_count() {
    assert!(Schema::decode(&with_points(65_535)).is_some());
    let mut base = vec![0; 1024];
    let refused = yarugota_model::call(
        b"SINON",
        b"    ",
        9,
        b"        ",
        b"",
        &mut [],
        &with_points(65_536),
        &mut base,
    );
    assert_eq!(refused, (Status::Schm, 9));
}

#[test]
fn case_j_a_sixth_bottle() {
    let mut fixture = small();
    for key in [b"B001", b"B002", b"B003", b"B004", b"B005"] {
        assert_eq!(add(&mut fixture, key), Status::Done);
    }
    assert_eq!(add(&mut fixture, b"B006"), Status::Full);
    assert_eq!(add(&mut fixture, b"B003"), Status::Dupm);
}

#[test]
fn an_empty_block_1_ends_with_its_number() {
    let mut fixture = small();
    let mut random = Random::new(1);
    fixture.base = random.bytes(1024);
    let formatted = fixture.on_set("FORMT", "    ", 3, b"", b"");
    assert_eq!((formatted.status, formatted.reference), (Status::Done, 3));
    let mut expected = vec![0; 1024];
    expected[1023] = 1;
    assert_eq!(fixture.base, expected);
}

#[test]
fn statuses_have_their_numbers_and_codes() {
    let codes = [
        "****", "SCHM", "SIZE", "FUNC", "FNTF", "KIND", "PATH", "AREA", "KLEN", "BCTL", "KEYS",
        "IVRP", "MRNF", "DUPM", "IMDL", "FULL", "DAMG",
    ];
    for (number, code) in codes.into_iter().enumerate() {
        let status = Status::ALL[number];
        assert_eq!((status.number(), status.code()), (number as u32, code));
    }
}
