//! Schemas at the edges of the rules: some that break exactly one, and some
//! that only just keep them all.
//!
//! In every broken schema the check is set right afterwards, unless the check
//! or the length is what is broken.

use yarugota_model::seal;

use crate::schemas::{Draft, Master, Path, Variable};

/// A schema, and what it shows.
pub struct Row {
    pub what: String,
    pub schema: Vec<u8>,
}

fn row(what: impl Into<String>, schema: Vec<u8>) -> Row {
    Row {
        what: what.into(),
        schema,
    }
}

fn master(name: &[u8; 4], key_length: u8, data_length: u16, records: u32) -> Master {
    Master {
        name: *name,
        key_length,
        data_length,
        records,
    }
}

/// Paths are written as letters and master entry number.
fn variable(name: &[u8; 4], data_length: u16, records: u32, paths: &[(&[u8; 2], u8)]) -> Variable {
    Variable {
        name: *name,
        data_length,
        records,
        paths: paths
            .iter()
            .map(|&(&letters, master)| Path { letters, master })
            .collect(),
    }
}

/// Two masters and two variable sets, the second with one path only, so that
/// there are used and unused slots and entries.
pub fn plain() -> Draft {
    Draft {
        masters: vec![master(b"BOTL", 4, 4, 5), master(b"CASE", 8, 0, 7)],
        variables: vec![
            variable(b"PNTS", 4, 6, &[(b"PT", 0), (b"CP", 1), (b"SP", 0)]),
            variable(b"LABL", 3, 9, &[(b"LB", 0)]),
        ],
    }
}

/// Bytes of the plain schema where its four entries start.
const BOTL: usize = 16;
const CASE: usize = 64;
const PNTS: usize = 112;
const LABL: usize = 160;
const FIRST_UNUSED: usize = 208;

/// Offsets within an entry.
const KIND: usize = 4;
const PATH_COUNT: usize = 5;
const RECORDS: usize = 8;
const KEY_LENGTH: usize = 12;
const SLOTS: usize = 16;

/// The plain schema with some bytes changed, and the check right again.
fn changed(at: usize, bytes: &[u8]) -> Vec<u8> {
    let mut schema = plain().encode();
    schema[at..at + bytes.len()].copy_from_slice(bytes);
    seal(&mut schema, 0);
    schema
}

fn drafted(edit: impl FnOnce(&mut Draft)) -> Vec<u8> {
    let mut draft = plain();
    edit(&mut draft);
    draft.encode()
}

/// Every rule of the schema, broken one at a time.
pub fn broken() -> Vec<Row> {
    [
        broken_block(),
        broken_header(),
        broken_zeros(),
        broken_names(),
        broken_kinds_and_counts(),
        broken_numbers(),
        broken_paths(),
        broken_sizes(),
    ]
    .into_iter()
    .flatten()
    .collect()
}

/// Length and check of the buffer.
fn broken_block() -> Vec<Row> {
    let mut rows = Vec::new();
    for length in [0, 1, 3, 16, 508, 511, 513, 1024] {
        let mut schema = plain().encode();
        schema.resize(length, 0);
        rows.push(row(format!("length {length}"), schema));
    }
    for byte in 508..512 {
        let mut schema = plain().encode();
        schema[byte] ^= 1;
        rows.push(row(format!("check false in byte {byte}"), schema));
    }
    let mut schema = plain().encode();
    seal(&mut schema, 1);
    rows.push(row("check of block number 1", schema));
    rows
}

fn broken_header() -> Vec<Row> {
    let five_masters: Vec<Master> = (b'A'..=b'E')
        .map(|letter| master(&[letter; 4], 4, 4, 5))
        .collect();
    let five_variables: Vec<Variable> = (b'F'..=b'J')
        .map(|letter| variable(&[letter; 4], 4, 5, &[(&[letter; 2], 0)]))
        .collect();
    let no_sets = Draft::default().encode();
    let masters_five = Draft {
        masters: five_masters.clone(),
        variables: Vec::new(),
    };
    let variables_five = Draft {
        masters: five_masters[..1].to_vec(),
        variables: five_variables,
    };
    let mut rows = vec![
        row("M 0", no_sets),
        row("M 5", masters_five.encode()),
        row("V 5", variables_five.encode()),
    ];
    for value in [0, 2, 0xFF] {
        rows.push(row(format!("byte 0 is {value}"), changed(0, &[value])));
    }
    rows
}

/// Bytes that must be zero.
fn broken_zeros() -> Vec<Row> {
    let header = 3..16;
    let entries = [BOTL, CASE, PNTS, LABL];
    let fillers = entries
        .iter()
        .flat_map(|entry| entry + KEY_LENGTH + 1..entry + SLOTS);
    let master_slots = CASE + SLOTS..PNTS;
    let used_slots =
        (0..3).flat_map(|slot| PNTS + SLOTS + slot * 8 + 3..PNTS + SLOTS + slot * 8 + 8);
    let unused_slots = PNTS + SLOTS + 24..LABL;
    let rest = FIRST_UNUSED..508;
    header
        .chain(fillers)
        .chain(master_slots)
        .chain(used_slots)
        .chain(unused_slots)
        .chain(rest)
        .map(|byte| row(format!("byte {byte} not zero"), changed(byte, &[1])))
        .collect()
}

/// Bytes beside the capitals and the digits.
const NO_CAPITAL_OR_DIGIT: [u8; 9] = *b"/:@[a \0\x7f\xff";

fn broken_names() -> Vec<Row> {
    let mut rows = Vec::new();
    for entry in [BOTL, LABL] {
        for digit in [b'0', b'9'] {
            let what = format!("name at {entry} starts with a digit");
            rows.push(row(what, changed(entry, &[digit])));
        }
        for place in 0..4 {
            for byte in NO_CAPITAL_OR_DIGIT {
                let what = format!("name at {entry} has {byte:#04x} at {place}");
                rows.push(row(what, changed(entry + place, &[byte])));
            }
        }
    }
    rows.push(row("two masters of one name", changed(CASE, b"BOTL")));
    rows.push(row(
        "master and variable of one name",
        changed(LABL, b"CASE"),
    ));
    rows.push(row("two variables of one name", changed(LABL, b"PNTS")));
    rows
}

fn broken_kinds_and_counts() -> Vec<Row> {
    let mut rows = Vec::new();
    for (entry, wrong) in [(CASE, [0, 2, 3, 0xFF]), (PNTS, [0, 1, 3, 0xFF])] {
        for kind in wrong {
            let what = format!("kind {kind} at {entry}");
            rows.push(row(what, changed(entry + KIND, &[kind])));
        }
    }
    for count in [1, 4, 0xFF] {
        let what = format!("path count {count} of a master");
        rows.push(row(what, changed(CASE + PATH_COUNT, &[count])));
    }
    let no_path = drafted(|draft| draft.variables[1].paths.clear());
    rows.push(row("no path", no_path));
    let mut five = drafted(|draft| {
        let fourth = Path {
            letters: *b"QP",
            master: 1,
        };
        draft.variables[0].paths.push(fourth);
    });
    five[PNTS + PATH_COUNT] = 5;
    seal(&mut five, 0);
    rows.push(row("path count 5", five));
    // Masters and variables may not be mixed: here the entries change places.
    let mut mixed = plain().encode();
    let case = mixed[CASE..PNTS].to_vec();
    mixed.copy_within(PNTS..LABL, CASE);
    mixed[PNTS..LABL].copy_from_slice(&case);
    seal(&mut mixed, 0);
    rows.push(row("a variable before a master", mixed));
    rows
}

fn broken_numbers() -> Vec<Row> {
    let mut rows = Vec::new();
    for entry in [BOTL, PNTS] {
        let what = format!("R 0 at {entry}");
        rows.push(row(what, changed(entry + RECORDS, &[0; 4])));
    }
    // Short records, so that 65,536 of them would fit into 4,096 blocks.
    let many_masters = Draft {
        masters: vec![master(b"MANY", 4, 0, 65_536)],
        variables: Vec::new(),
    };
    rows.push(row("R 65,536 of a master", many_masters.encode()));
    let many_variables = Draft {
        masters: vec![master(b"BOTL", 4, 4, 5)],
        variables: vec![variable(b"PNTS", 4, 65_536, &[(b"PT", 0)])],
    };
    rows.push(row("R 65,536 of a variable", many_variables.encode()));
    for records in [0x0100_0001, 0x8000_0005, u32::MAX] {
        let what = format!("R {records:#x}");
        let bytes = records.to_be_bytes();
        rows.push(row(what, changed(BOTL + RECORDS, &bytes)));
    }
    let wrong_keys = (0..=u8::MAX).filter(|length| !matches!(length, 4 | 8 | 12 | 16));
    for length in wrong_keys {
        let what = format!("K {length} of a master");
        rows.push(row(what, changed(CASE + KEY_LENGTH, &[length])));
    }
    for length in [1, 4, 8, 0xFF] {
        let what = format!("K {length} of a variable");
        rows.push(row(what, changed(PNTS + KEY_LENGTH, &[length])));
    }
    rows
}

fn broken_paths() -> Vec<Row> {
    let mut rows = Vec::new();
    for place in 0..2 {
        for byte in NO_CAPITAL_OR_DIGIT {
            let what = format!("letters with {byte:#04x} at {place}");
            rows.push(row(what, changed(PNTS + SLOTS + 8 + place, &[byte])));
        }
    }
    for entry in [2, 3, 4, 0xFF] {
        let what = format!("path to entry {entry}, which is no master");
        rows.push(row(what, changed(PNTS + SLOTS + 8 + 2, &[entry])));
    }
    let one_master = drafted(|draft| draft.variables[0].paths[2].letters = *b"PT");
    rows.push(row("one xx twice in a set, one master", one_master));
    let two_masters = drafted(|draft| draft.variables[0].paths[1].letters = *b"PT");
    rows.push(row("one xx twice in a set, two masters", two_masters));
    let two_sets = drafted(|draft| draft.variables[1].paths[0].letters = *b"SP");
    rows.push(row("one xx twice to a master, two sets", two_sets));
    rows
}

/// Records and data bases that are too large.
fn broken_sizes() -> Vec<Row> {
    // BOTL's record has 12 + 4 + 3 * 8 = 40 bytes besides D, LABL's 4 + 12.
    let master_length = drafted(|draft| draft.masters[0].data_length = 469);
    let variable_length = drafted(|draft| draft.variables[1].data_length = 493);
    let master_longest = drafted(|draft| draft.masters[0].data_length = u16::MAX);
    let variable_longest = drafted(|draft| draft.variables[1].data_length = u16::MAX);
    // Here one record fills a block.
    let one_set = Draft {
        masters: vec![master(b"LONG", 4, 492, 4097)],
        variables: Vec::new(),
    };
    let two_sets = Draft {
        masters: vec![master(b"LONG", 4, 492, 4096), master(b"MORE", 4, 0, 1)],
        variables: Vec::new(),
    };
    let far_too_many = Draft {
        masters: (b'A'..=b'D')
            .map(|letter| master(&[letter; 4], 4, 492, 65_535))
            .collect(),
        variables: Vec::new(),
    };
    vec![
        row("L 509 of a master", master_length),
        row("L 509 of a variable", variable_length),
        row("D 65,535 of a master", master_longest),
        row("D 65,535 of a variable", variable_longest),
        row("T 4,097 in one set", one_set.encode()),
        row("T 4,097 in two sets", two_sets.encode()),
        row("T 262,140", far_too_many.encode()),
    ]
}

/// Schemas that keep every rule, but only just.
pub fn kept() -> Vec<(String, Draft)> {
    let mut kept = vec![
        ("plain".to_string(), plain()),
        (
            "the largest numbers of sets and paths".to_string(),
            fullest(),
        ),
        ("the largest T".to_string(), most_blocks()),
    ];
    kept.extend(kept_single_sets());
    kept.extend(kept_paths());
    kept
}

/// Four masters, and four variable sets with four paths each.
pub fn fullest() -> Draft {
    let masters = [(b"AAAA", 4), (b"Z000", 8), (b"A999", 12), (b"ZZZZ", 16)];
    let letters = [b"00", b"99", b"AA", b"ZZ"];
    Draft {
        masters: masters
            .map(|(name, key_length)| master(name, key_length, 1, 3))
            .to_vec(),
        variables: (0..4)
            .map(|set| {
                let name = [b'V', b'0' + set, b'A', b'Z'];
                // Each set turns its paths by one master, so that no xx comes
                // to one master twice.
                let turned = |at: usize| (letters[at], (at as u8 + set) % 4);
                variable(&name, 2, 3, &[0, 1, 2, 3].map(turned))
            })
            .collect(),
    }
}

/// T 4,096 exactly, in two sets.
fn most_blocks() -> Draft {
    Draft {
        masters: vec![master(b"LONG", 4, 484, 4000)],
        variables: vec![variable(b"SHRT", 0, 96 * 31, &[(b"PT", 0)])],
    }
}

/// One master set each: records of every length at which the number of records
/// to a block may change, and the largest R and T.
fn kept_single_sets() -> Vec<(String, Draft)> {
    let sizes = [
        (4, 0, 1),
        (16, 0, 65_535),
        (4, 0, 65_535),
        (8, 149, 10),
        (8, 150, 10),
        (4, 238, 7),
        (4, 239, 7),
        (12, 484, 3),
        (4, 492, 4096),
    ];
    sizes
        .into_iter()
        .map(|(key_length, data_length, records)| {
            let what = format!("K {key_length}, D {data_length}, R {records}");
            let draft = Draft {
                masters: vec![master(b"A0Z9", key_length, data_length, records)],
                variables: Vec::new(),
            };
            (what, draft)
        })
        .collect()
}

fn kept_paths() -> Vec<(String, Draft)> {
    let mut one_xx = plain();
    one_xx.variables[1].paths[0] = Path {
        letters: *b"PT",
        master: 1,
    };
    let mut longest = plain();
    longest.masters[0].data_length = 468;
    longest.variables[1].data_length = 492;
    let mut many = plain();
    many.variables[1].records = 65_535;
    vec![
        ("one xx in two sets to two masters".to_string(), one_xx),
        ("L 508 of master and variable".to_string(), longest),
        ("R 65,535 of a variable".to_string(), many),
    ]
}
