//! Where every record lies.

use yarugota_leaves::record_place;
use yarugota_model::Schema;
use yarugota_support::{rules, schemas, Random, Trace};

/// With more records than this, a sample of them is compared.
const ALL_UP_TO: u32 = 300;

fn compare(random: &mut Random, bytes: &[u8]) {
    let schema = Schema::decode(bytes).expect("a schema that keeps every rule");
    for (entry, set) in schema.entries.iter().enumerate() {
        let mut records: Vec<u32> = if set.records <= ALL_UP_TO {
            (0..=set.records + 2).collect()
        } else {
            sample(
                random,
                set.records,
                schema.layout.places[entry].records_per_block,
            )
        };
        records.extend([65_535, 65_536, 0x8000_0000, u32::MAX]);
        for record in records {
            let expected = schema.record_offset(entry, record);
            let place = record_place(bytes, entry as u32, record);
            assert_eq!(
                place,
                expected.map(|place| place as u64),
                "{entry} {record}"
            );
        }
    }
    let used = schema.entries.len() as u32;
    for entry in (used..10).chain([255, 256, 0x8000_0000, u32::MAX]) {
        assert_eq!(record_place(bytes, entry, 1), None, "entry {entry}");
    }
}

/// Both ends, both sides of some block ends, and some in between.
fn sample(random: &mut Random, records: u32, per_block: usize) -> Vec<u32> {
    let mut sample = vec![0, 1, 2, records - 1, records, records + 1, records + 2];
    for _ in 0..40 {
        let block = random.below(records as usize / per_block + 1);
        let end = (block * per_block) as u32;
        sample.extend([end, end + 1, random.between(1, records as usize) as u32]);
    }
    sample
}

#[test]
fn schemas_that_only_just_keep_the_rules() {
    let mut random = Random::new(1);
    for (what, draft) in rules::kept() {
        println!("{what}");
        compare(&mut random, &draft.encode());
    }
}

#[test]
fn random_schemas() {
    for seed in 0..600 {
        let _trace = Trace::new(seed);
        let mut random = Random::new(seed);
        let small = schemas::small(&mut random).encode();
        compare(&mut random, &small);
        let any = schemas::any(&mut random).encode();
        compare(&mut random, &any);
    }
}

/// Every record of the longest set.
#[test]
fn all_records_of_a_long_set() {
    let mut draft = rules::plain();
    draft.variables[1].records = 65_535;
    let bytes = draft.encode();
    let schema = Schema::decode(&bytes).expect("a schema that keeps every rule");
    for record in 0..=65_536 {
        let expected = schema.record_offset(3, record);
        let place = record_place(&bytes, 3, record);
        assert_eq!(place, expected.map(|place| place as u64), "{record}");
    }
}

#[test]
fn no_record_under_a_broken_rule() {
    for row in rules::broken() {
        for entry in 0..8 {
            for record in [0, 1, 5] {
                let place = record_place(&row.schema, entry, record);
                assert_eq!(place, None, "{}", row.what);
            }
        }
    }
}
