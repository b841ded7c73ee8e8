//! The largest data base: T 4,096, R 65,535.

use yarugota_model::Status;
use yarugota_support::schemas::{Draft, Master, Path, Variable};
use yarugota_support::{model, Call, Fixture};

const BOTTLES: u32 = 65_535;
const POINTS: u32 = 3_000;

fn largest() -> Fixture {
    // 24 bytes a bottle, 21 to a block; 20 bytes a point, 25 to a block.
    let draft = Draft {
        masters: vec![Master {
            name: *b"BOTL",
            key_length: 4,
            data_length: 0,
            records: BOTTLES,
        }],
        variables: vec![Variable {
            name: *b"PNTS",
            data_length: 4,
            records: (4096 - 3121) * 25,
            paths: vec![Path {
                letters: *b"PT",
                master: 0,
            }],
        }],
    };
    assert_eq!(draft.blocks(), 4096);
    Fixture::formatted(&draft.encode())
}

fn make(fixture: &mut Fixture, op: &[u8; 5], set: &[u8; 4], key: u32, data: &[u8]) -> u32 {
    let key = key.to_be_bytes().to_vec();
    let mut call = Call {
        op: *op,
        set: *set,
        reference: 0,
        path: *b"BOTLLKPT",
        area: [&key, data].concat(),
        key,
    };
    let (status, reference) = model(&mut call, &fixture.schema, &mut fixture.base);
    assert_eq!(status, Status::Done);
    reference
}

#[test]
fn a_full_master_set_and_long_chains() {
    let mut fixture = largest();
    for key in 0..BOTTLES {
        make(&mut fixture, b"ADD-M", b"BOTL", key, b"");
    }
    // Half of the points lie on one chain, the others on chains of two.
    for point in 0..POINTS {
        let key = if point % 2 == 0 {
            7
        } else {
            50_000 + point / 4
        };
        let number = make(&mut fixture, b"ADDVC", b"PNTS", key, b"data");
        assert_eq!(number, point + 1);
    }
    assert_eq!(make(&mut fixture, b"READM", b"BOTL", 65_534, b""), 65_535);
    assert_eq!(fixture.sinon(), Status::Done);
    let full = fixture.on_set("ADD-M", "BOTL", 0, b"ZZZZ", b"ZZZZ");
    assert_eq!(full.status, Status::Full);
    // The last pointer of the long chain.
    fixture.poke_pointer("PNTS", POINTS - 1, 12, POINTS);
    assert_eq!(fixture.sinon(), Status::Damg);
}
