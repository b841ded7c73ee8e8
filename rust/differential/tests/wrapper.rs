//! The wrapper for Rust programs: it names things as document 01 and the C
//! header do, hands calls over unchanged, and writes schemas as they are read.

use yarugota::{PathName, Reference, SetName};
use yarugota_model::{Operation, Schema, Status};
use yarugota_support::calls::CallMaker;
use yarugota_support::schemas::{self, Draft};
use yarugota_support::{model, Random};

#[test]
fn statuses_are_numbered_as_in_the_header() {
    let header = include_str!("../../../include/yarugota.h");
    for status in Status::ALL {
        let number = status.number();
        let ours = yarugota::Status::numbered(number).expect("a status of that number");
        assert_eq!(ours.code(), status.code());
        let name = match status {
            Status::Done => "DONE",
            other => other.code(),
        };
        let line = format!("YARUGOTA_{name} = {number}");
        let listed = header.lines().any(|text| {
            let end = text.trim().strip_prefix(&line);
            end.is_some_and(|end| end.starts_with([',', ' ']))
        });
        assert!(listed, "{line}");
    }
    assert_eq!(yarugota::Status::numbered(17), None);
    let end = yarugota_model::reference::END;
    assert_eq!(Reference::END.bits(), end);
    assert!(header.contains(&format!("UINT32_C(0x{end:X})")));
}

#[test]
fn the_header_has_the_codes_in_their_order() {
    let header = include_str!("../../../include/yarugota.h");
    let (_, after) = header.split_once("codes[] = {").expect("a list of codes");
    let (list, _) = after.split_once('}').expect("its end");
    let listed: Vec<&str> = list.split('"').skip(1).step_by(2).collect();
    assert_eq!(listed, Status::ALL.map(|status| status.code()));
}

#[test]
fn operations_are_named_as_in_the_model() {
    let ours = yarugota::Operation::ALL.map(|one| one.name());
    assert_eq!(ours, Operation::ALL.map(|one| one.name()));
}

#[test]
fn the_header_has_the_length_of_a_block() {
    let header = include_str!("../../../include/yarugota.h");
    let line = format!("#define YARUGOTA_BLOCK {}", yarugota_model::BLOCK);
    assert!(header.lines().any(|text| text == line), "{line}");
    assert_eq!(yarugota::BLOCK, yarugota_model::BLOCK);
}

#[test]
fn an_answer_is_done_or_refused() {
    let reference = Reference::number(7);
    for status in yarugota::Status::ALL {
        let answer = yarugota::Answer { status, reference };
        let expected = match status {
            yarugota::Status::Done => Ok(reference),
            refused => Err(refused),
        };
        assert_eq!(answer.done(), expected);
    }
}

#[test]
fn calls_go_over_unchanged() {
    let mut random = Random::new(11);
    let bytes = schemas::small(&mut random).encode();
    let schema = Schema::decode(&bytes).expect("a schema that keeps every rule");
    let maker = CallMaker::new(&mut random, &schema);
    let mut base = vec![0; schema.base_length()];
    yarugota_model::format(&mut base);
    for _ in 0..300 {
        let call = maker.likely(&mut random, &base);
        let mut known = yarugota::Operation::ALL.into_iter();
        let operation = known.find(|one| *one.name() == call.op);
        let mut area = call.area.clone();
        let mut ours = base.clone();
        let given = yarugota::Call {
            operation: operation.expect("a known operation"),
            set: SetName(call.set),
            reference: Reference::from_bits(call.reference),
            path: PathName(call.path),
            key: &call.key,
        };
        let answer = yarugota::call(&given, &mut area, &bytes, &mut ours);
        let mut made = call.clone();
        let (status, reference) = model(&mut made, &bytes, &mut base);
        let bits = (answer.status.number(), answer.reference.bits());
        assert_eq!(bits, (status.number(), reference), "{call:?}");
        assert_eq!(area, made.area, "{call:?}");
        assert!(ours == base, "{call:?}");
    }
}

/// The draft's sets, given to the wrapper one by one.
fn built(draft: &Draft) -> yarugota::Schema {
    let mut sets = yarugota::Schema::new();
    for set in &draft.masters {
        sets = sets.master(
            SetName(set.name),
            set.key_length,
            set.data_length,
            set.records,
        );
    }
    for set in &draft.variables {
        let name = |path: &schemas::Path| {
            let master = &draft.masters[usize::from(path.master)];
            PathName::new(SetName(master.name), path.letters)
        };
        let paths: Vec<PathName> = set.paths.iter().map(name).collect();
        sets = sets.variable(SetName(set.name), set.data_length, set.records, &paths);
    }
    sets
}

#[test]
fn schemas_are_written_as_they_are_read() {
    let mut random = Random::new(12);
    for _ in 0..500 {
        let draft = schemas::any(&mut random);
        let sets = built(&draft);
        assert!(draft.encode() == sets.block(), "{draft:?}");
        let schema = Schema::decode(&sets.block()).expect("a schema that keeps every rule");
        assert_eq!(sets.blocks(), schema.blocks(), "{draft:?}");
    }
}

/// Whether the store takes the schema, and a data base of so many blocks. It
/// must where the model does.
fn taken(sets: &yarugota::Schema) -> bool {
    let schema = sets.block();
    let mut base = vec![0; 512 * sets.blocks()];
    let format = yarugota::Call::new(yarugota::Operation::Formt);
    let status = yarugota::call(&format, &mut [], &schema, &mut base).status;
    let expected = match Schema::decode(&schema) {
        Some(_) => yarugota::Status::Done,
        None => yarugota::Status::Schm,
    };
    assert_eq!(status, expected, "{sets:?}");
    status == yarugota::Status::Done
}

/// So many masters and variable sets, and so many paths to each of these.
fn filled(masters: u8, variables: u8, paths: u8, data: u16, records: u32) -> yarugota::Schema {
    let name = |letter: u8, number| SetName([letter, b'S', b'E', b'0' + number]);
    let mut sets = yarugota::Schema::new();
    for number in 0..masters {
        sets = sets.master(name(b'M', number), 16, data, records);
    }
    for number in 0..variables {
        let path =
            |other| PathName::new(name(b'M', other % masters), [b'0' + number, b'0' + other]);
        let paths: Vec<PathName> = (0..paths).map(path).collect();
        sets = sets.variable(name(b'V', number), data, records, &paths);
    }
    sets
}

#[test]
fn schemas_may_have_four_of_each() {
    assert!(taken(&filled(4, 4, 4, 0, 1)));
    assert!(taken(&filled(1, 4, 4, 0, 1)));
    assert!(taken(&filled(1, 0, 0, 0, 1)));
    assert!(!taken(&filled(5, 4, 4, 0, 1)));
    assert!(!taken(&filled(4, 5, 4, 0, 1)));
    assert!(!taken(&filled(4, 4, 5, 0, 1)));
    assert!(!taken(&filled(4, 4, 0, 0, 1)));
    assert!(!taken(&filled(1, 200, 9, 0, 1)));
    assert!(!taken(&yarugota::Schema::new()));
}

#[test]
fn schemas_may_be_as_large_as_the_rules_allow() {
    let small = |points| {
        let sets = yarugota::Schema::new().master(SetName(*b"BOTL"), 4, 4, 5);
        sets.variable(SetName(*b"PNTS"), 4, points, &[PathName(*b"BOTLLKPT")])
    };
    assert!(taken(&small(65_535)));
    assert!(!taken(&small(65_536)));
    assert!(!taken(&small(0)));
    assert!(!taken(&small(u32::MAX)));
    let bottles =
        |data, records| yarugota::Schema::new().master(SetName(*b"BOTL"), 4, data, records);
    assert!(taken(&bottles(492, 4096)));
    assert!(!taken(&bottles(492, 4097)));
    assert_eq!(bottles(492, 4097).blocks(), 0);
    assert!(!taken(&bottles(493, 1)));
    assert_eq!(bottles(493, 1).blocks(), 0);
    assert!(!taken(&bottles(u16::MAX, 1)));
}

#[test]
fn a_path_names_its_master() {
    let paths = |path: &[u8; 8]| {
        let sets = yarugota::Schema::new().master(SetName(*b"BOTL"), 4, 4, 5);
        let sets = sets.master(SetName(*b"CASE"), 8, 4, 5);
        sets.variable(SetName(*b"PNTS"), 4, 6, &[PathName(*path)])
    };
    assert!(taken(&paths(b"BOTLLKPT")));
    assert!(taken(&paths(b"CASELKPT")));
    assert!(!taken(&paths(b"PNTSLKPT")));
    assert!(!taken(&paths(b"BOTLKLPT")));
    assert!(!taken(&paths(b"BOTLLKpt")));
}
