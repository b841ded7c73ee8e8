//! Every kind of bad parameter, alone and together with others, so that the
//! order of the tests is seen.

use yarugota_model::reference::{lk, END};
use yarugota_model::{Entry, Kind, Operation};
use yarugota_support::stock::{stocked, ABSENT_BOTTLE, ABSENT_CASE};
use yarugota_support::{Call, Fixture};

use crate::Beside;

const BLANK: u8 = 0x20;

/// All combinations on the stocked store.
pub fn every(beside: &mut Beside) {
    let fixture = stocked();
    beside.schema(&fixture.schema);
    beside.set_base(&fixture.base);
    for op in operations() {
        for set in [b"BOTL", b"CASE", b"PNTS", b"LABL", b"NONE"] {
            each_call(&fixture, op, *set, |call| {
                let answered = beside.call(call);
                if answered.status == yarugota_model::Status::Done {
                    beside.base_again();
                }
            });
            if beside.differs() {
                return;
            }
        }
    }
    with_bad_buffers(beside, &fixture);
}

/// The sixteen, and some that are not known.
fn operations() -> Vec<[u8; 5]> {
    let mut all: Vec<[u8; 5]> = Operation::ALL.map(|operation| *operation.name()).to_vec();
    all.extend([*b"SINOF", *b"READX", *b"add-m", *b"\0\0\0\0\0", *b"ADDV "]);
    all
}

fn each_call(fixture: &Fixture, op: [u8; 5], set: [u8; 4], mut make: impl FnMut(&Call)) {
    let number = fixture.decoded.entry_named(&set);
    let entry = number.map(|number| &fixture.decoded.entries[number]);
    for path in paths(op) {
        for area in areas(entry) {
            for key in keys() {
                for reference in references() {
                    make(&Call {
                        op,
                        set,
                        reference,
                        path,
                        key: key.clone(),
                        area: area.clone(),
                    });
                }
            }
        }
    }
}

/// Calls on master sets and sweeps look at no path.
fn paths(op: [u8; 5]) -> Vec<[u8; 8]> {
    let on_variables = [
        b"READV", b"READR", b"READD", b"WRITV", b"ADDVC", b"ADDVB", b"ADDVA", b"DELVD",
    ];
    if on_variables.contains(&&op) {
        vec![
            *b"BOTLLKPT",
            *b"CASELKCP",
            *b"BOTLLKSP",
            *b"BOTLLKLB",
            *b"CASELKPT",
            *b"BOTLLKXX",
        ]
    } else {
        vec![*b"BOTLLKPT"]
    }
}

fn keys() -> Vec<Vec<u8>> {
    vec![
        b"B001".to_vec(),
        b"B004".to_vec(),
        b"CASE0001".to_vec(),
        ABSENT_BOTTLE.to_vec(),
        ABSENT_CASE.to_vec(),
        vec![BLANK; 4],
        vec![BLANK; 8],
        Vec::new(),
        b"B00".to_vec(),
        vec![BLANK; 5],
    ]
}

fn references() -> [u32; 9] {
    [0, 1, 3, 4, 5, 7, lk(*b"PT"), lk(*b"CP"), END]
}

/// Areas of the right length with right, blank, other and absent keys, and
/// areas of other lengths.
fn areas(entry: Option<&Entry>) -> Vec<Vec<u8>> {
    let Some(entry) = entry else {
        return vec![Vec::new(), vec![BLANK; 8]];
    };
    let mut areas: Vec<Vec<u8>> = match (entry.kind, entry.area_length()) {
        (Kind::Master, 8) if entry.key_length == 4 => {
            vec![
                b"B001data".to_vec(),
                b"    data".to_vec(),
                b"B004data".to_vec(),
            ]
        }
        (Kind::Master, _) => vec![b"CASE0001".to_vec(), vec![BLANK; 8]],
        (Kind::Variable, 7) => vec![b"B001dat".to_vec(), b"    dat".to_vec()],
        _ => [
            b"B001CASE0001B001data",
            b"B004CASE0001B001data",
            b"B001CASE0001    data",
            b"B001        B001data",
            b"    CASE0001B001data",
            b"B001CASE0001B00;data",
            b"B001CASE0008B00;data",
        ]
        .map(|area| area.to_vec())
        .to_vec(),
    };
    let mut longer = areas[0].clone();
    longer.push(0);
    areas.extend([longer, Vec::new()]);
    areas
}

/// A schema that breaks a rule and a data base of another length come before
/// every other fault.
fn with_bad_buffers(beside: &mut Beside, fixture: &Fixture) {
    let mut broken = fixture.schema.clone();
    broken[3] = 1;
    let short = &fixture.schema[..511];
    let bases = [
        fixture.base.clone(),
        Vec::new(),
        fixture.base[1..].to_vec(),
        fixture.base[512..].to_vec(),
        [&fixture.base[..], &[0]].concat(),
        [&fixture.base[..], &[0; 512]].concat(),
    ];
    for schema in [&fixture.schema[..], &broken, short, &[]] {
        beside.schema(schema);
        for base in &bases {
            beside.set_base(base);
            for op in operations() {
                for set in [*b"BOTL", *b"PNTS", *b"NONE"] {
                    beside.call(&Call {
                        op,
                        set,
                        reference: 1,
                        path: *b"BOTLLKPT",
                        key: b"B001".to_vec(),
                        area: b"B001CASE0001B001data".to_vec(),
                    });
                    beside.base_again();
                }
            }
        }
    }
}
