//! The schema: every rule broken one at a time, the edges that pass, and the
//! layout that follows.

use yarugota_model::{call, seal, Kind, Schema, Status, BLOCK};
use yarugota_support::schemas::{Draft, Master, Path, Variable};
use yarugota_support::{rules, schemas, Random, Trace};

#[test]
fn each_broken_rule_is_schm() {
    for row in rules::broken() {
        assert_eq!(Schema::decode(&row.schema), None, "{}", row.what);
        let mut base = vec![0; BLOCK];
        let mut area = *b"area";
        let answer = call(
            b"FORMT",
            b"BOTL",
            77,
            b"BOTLLKPT",
            b"B001",
            &mut area,
            &row.schema,
            &mut base,
        );
        assert_eq!(answer, (Status::Schm, 77), "{}", row.what);
        assert!(base.iter().all(|&byte| byte == 0), "{}", row.what);
    }
}

#[test]
fn schemas_that_only_just_keep_the_rules() {
    for (what, draft) in rules::kept() {
        println!("{what}");
        decodes_as_drafted(&draft);
    }
}

#[test]
fn random_schemas() {
    for seed in 0..4000 {
        let _trace = Trace::new(seed);
        let mut random = Random::new(seed);
        decodes_as_drafted(&schemas::small(&mut random));
        decodes_as_drafted(&schemas::any(&mut random));
    }
}

/// A schema that is accepted says nothing but what the decoded one says: no
/// byte of it is overlooked.
#[test]
fn changed_bytes_are_refused_or_seen() {
    for seed in 0..4000 {
        let mut trace = Trace::new(seed);
        let mut random = Random::new(seed);
        let valid = schemas::any(&mut random).encode();
        for step in 0..40 {
            trace.step = step;
            let mut schema = valid.clone();
            for _ in 0..random.between(1, 2) {
                let at = random.below(BLOCK - 4);
                schema[at] = *random.pick(&[0, 1, 2, 4, 5, 8, b'A', b'Z', b'0', 0xFF]);
            }
            seal(&mut schema, 0);
            if let Some(decoded) = Schema::decode(&schema) {
                assert_eq!(drafted(&decoded).encode(), schema);
            }
        }
    }
}

fn decodes_as_drafted(draft: &Draft) {
    let bytes = draft.encode();
    let schema = Schema::decode(&bytes).expect("a schema that keeps every rule");
    assert_eq!(drafted(&schema).encode(), bytes);
    assert_eq!(schema.blocks(), draft.blocks());
    assert!((1..=4096).contains(&schema.blocks()));
    records_follow_each_other(&schema);
}

/// The decoded schema, written as lists again.
fn drafted(schema: &Schema) -> Draft {
    let mut draft = Draft::default();
    for entry in &schema.entries {
        match entry.kind {
            Kind::Master => draft.masters.push(Master {
                name: entry.name,
                key_length: entry.key_length as u8,
                data_length: entry.data_length as u16,
                records: entry.records,
            }),
            Kind::Variable => draft.variables.push(Variable {
                name: entry.name,
                data_length: entry.data_length as u16,
                records: entry.records,
                paths: entry
                    .paths
                    .iter()
                    .map(|path| Path {
                        letters: path.letters,
                        master: path.master as u8,
                    })
                    .collect(),
            }),
        }
    }
    draft
}

/// Lays the records out one by one, and compares.
fn records_follow_each_other(schema: &Schema) {
    let mut at = 0;
    for (number, entry) in schema.entries.iter().enumerate() {
        at = fresh_block(at);
        assert_eq!(schema.first_block(number), Some(at / BLOCK));
        let length = record_length(schema, number);
        assert_eq!(schema.record_length(number), Some(length));
        assert_eq!(schema.records_per_block(number), Some(508 / length));
        for record in 1..=entry.records {
            if at % BLOCK + length > 508 {
                at = fresh_block(at);
            }
            assert_eq!(schema.record_offset(number, record), Some(at));
            at += length;
        }
        for outside in [0, entry.records + 1, u32::MAX] {
            assert_eq!(schema.record_offset(number, outside), None);
        }
    }
    assert_eq!(fresh_block(at), schema.blocks() * BLOCK);
    let unused = schema.entries.len();
    assert_eq!(schema.record_offset(unused, 1), None);
    assert_eq!(schema.first_block(unused), None);
}

fn fresh_block(at: usize) -> usize {
    at.next_multiple_of(BLOCK)
}

/// L, added up field by field.
fn record_length(schema: &Schema, number: usize) -> usize {
    let entry = &schema.entries[number];
    let mut length = 4;
    match entry.kind {
        Kind::Master => {
            length += 4 + 4 + entry.key_length;
            for path in schema.entries.iter().flat_map(|entry| &entry.paths) {
                if path.master == number {
                    length += 4 + 4;
                }
            }
        }
        Kind::Variable => {
            for path in &entry.paths {
                length += schema.entries[path.master].key_length + 4 + 4;
            }
        }
    }
    length + entry.data_length
}

#[test]
fn fields_lie_where_document_01_puts_them() {
    let schema = Schema::decode(&rules::plain().encode()).unwrap();
    let [botl, case, pnts, labl] = &schema.entries[..] else {
        panic!("four sets");
    };
    // State and zeros, ROOT next and prior, key of 4, then PT, SP and LB.
    assert_eq!([botl.first_at(0), botl.last_at(0)], [16, 20]);
    assert_eq!([botl.first_at(1), botl.first_at(2)], [24, 32]);
    assert_eq!((botl.data_at(), botl.record_length()), (40, 44));
    // A key of 8, then CP.
    assert_eq!((case.first_at(0), case.record_length()), (20, 28));
    // State and zeros, then a key of 4, of 8 and of 4 with two pointers each.
    assert_eq!(
        [pnts.key_at(0), pnts.prior_at(0), pnts.next_at(0)],
        [4, 8, 12]
    );
    assert_eq!(
        [pnts.key_at(1), pnts.prior_at(1), pnts.next_at(1)],
        [16, 24, 28]
    );
    assert_eq!(
        [pnts.key_at(2), pnts.prior_at(2), pnts.next_at(2)],
        [32, 36, 40]
    );
    assert_eq!((pnts.data_at(), pnts.record_length()), (44, 48));
    assert_eq!((labl.key_at(0), labl.record_length()), (4, 19));
    let linkages: Vec<usize> = pnts.paths.iter().map(|path| path.linkage).collect();
    assert_eq!(linkages, [0, 0, 1]);
    assert_eq!(labl.paths[0].linkage, 2);
    assert_eq!((pnts.area_length(), botl.area_length()), (20, 8));
}
