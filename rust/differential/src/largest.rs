//! Calls on a data base with T 4,096 and R 65,535, with a few records at the
//! far ends of their sets.

use yarugota_model::reference::lk;
use yarugota_model::BLOCK;
use yarugota_support::schemas::{Draft, Master, Path, Variable};
use yarugota_support::Call;

use crate::Beside;

const MOST_BLOCKS: usize = 4096;
const BOTTLES: u32 = 65_535;

/// Three keys of the first home and three of the last.
const KEYS: [u32; 6] = [
    0,
    BOTTLES - 1,
    2 * BOTTLES - 1,
    BOTTLES,
    u32::MAX,
    u32::MAX - 1,
];

pub fn every(beside: &mut Beside) {
    beside.schema(&draft().encode());
    beside.set_base(&vec![0xEE; MOST_BLOCKS * BLOCK]);
    beside.call(&Call::plain(b"FORMT"));
    for key in KEYS {
        beside.call(&call(b"ADD-M", b"BOTL", 0, key, b""));
        beside.call(&call(b"READM", b"BOTL", 0, key, b""));
        for _ in 0..3 {
            beside.call(&call(b"ADDVC", b"PNTS", 0, key, b"data"));
        }
        beside.call(&call(b"READR", b"PNTS", lk(*b"PT"), key, b"...."));
    }
    for reference in [0, 5, BOTTLES - 1, BOTTLES, BOTTLES + 1] {
        beside.call(&call(b"RDNXT", b"BOTL", reference, 0, b""));
        beside.call(&call(b"RDNXT", b"PNTS", reference, 0, b"...."));
    }
    beside.call(&call(b"DELVD", b"PNTS", 2, 0, b""));
    beside.call(&call(b"DEL-M", b"BOTL", 0, BOTTLES - 1, b""));
}

/// The bottles take 3,121 blocks, 21 to a block; the points, 25 to a block,
/// take all others.
fn draft() -> Draft {
    let path = Path {
        letters: *b"PT",
        master: 0,
    };
    Draft {
        masters: vec![Master {
            name: *b"BOTL",
            key_length: 4,
            data_length: 0,
            records: BOTTLES,
        }],
        variables: vec![Variable {
            name: *b"PNTS",
            data_length: 4,
            records: (MOST_BLOCKS as u32 - 3121) * 25,
            paths: vec![path],
        }],
    }
}

fn call(op: &[u8; 5], set: &[u8; 4], reference: u32, key: u32, data: &[u8]) -> Call {
    let key = key.to_be_bytes().to_vec();
    Call {
        op: *op,
        set: *set,
        reference,
        path: *b"BOTLLKPT",
        area: [&key, data].concat(),
        key,
    }
}
