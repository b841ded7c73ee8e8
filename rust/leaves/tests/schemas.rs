//! T of every schema, or the broken rule.

use yarugota_leaves::schema_blocks;
use yarugota_model::console::small_store;
use yarugota_model::{seal, Schema, BLOCK};
use yarugota_support::{rules, schemas, Random, Trace};

/// What the model says: T, or 0.
fn model_blocks(schema: &[u8]) -> u32 {
    Schema::decode(schema).map_or(0, |schema| schema.blocks() as u32)
}

#[track_caller]
fn agree(schema: &[u8]) {
    assert_eq!(schema_blocks(schema), model_blocks(schema));
}

#[test]
fn each_broken_rule() {
    for row in rules::broken() {
        assert_eq!(schema_blocks(&row.schema), 0, "{}", row.what);
    }
}

#[test]
fn schemas_that_only_just_keep_the_rules() {
    for (what, draft) in rules::kept() {
        let blocks = schema_blocks(&draft.encode());
        assert_eq!(blocks as usize, draft.blocks(), "{what}");
    }
}

#[test]
fn random_schemas() {
    for seed in 0..20_000 {
        let _trace = Trace::new(seed);
        let mut random = Random::new(seed);
        for draft in [schemas::small(&mut random), schemas::any(&mut random)] {
            let schema = draft.encode();
            assert_eq!(schema_blocks(&schema) as usize, draft.blocks());
            agree(&schema);
        }
    }
}

/// Every value of every byte before the check: kinds, counts, letters, edges
/// of numbers and bytes that must be zero are all among them.
#[test]
fn every_value_of_every_byte() {
    let fullest = rules::fullest().encode();
    for valid in [small_store().to_vec(), rules::plain().encode(), fullest] {
        for at in 0..BLOCK - 4 {
            for value in 0..=u8::MAX {
                let mut schema = valid.clone();
                schema[at] = value;
                seal(&mut schema, 0);
                agree(&schema);
            }
        }
    }
}

/// Numbers of two and four bytes near their edges, in every entry.
#[test]
fn edges_of_numbers() {
    let valid = rules::plain().encode();
    for entry in 0..4 {
        let at = 16 + 48 * entry;
        for length in (0..=600).chain([32_767, 32_768, 65_534, 65_535]) {
            let mut schema = valid.clone();
            schema[at + 6..at + 8].copy_from_slice(&u16::to_be_bytes(length));
            seal(&mut schema, 0);
            agree(&schema);
        }
        let records = (0..=40)
            .chain((0..=70_000).step_by(97))
            .chain(65_530..=65_540)
            .chain([
                0x0100_0000,
                0x7FFF_FFFF,
                0x8000_0000,
                u32::MAX - 1,
                u32::MAX,
            ]);
        for records in records {
            let mut schema = valid.clone();
            schema[at + 8..at + 12].copy_from_slice(&u32::to_be_bytes(records));
            seal(&mut schema, 0);
            agree(&schema);
        }
    }
}

/// All sets together, up to T 4,096 and above.
#[test]
fn edges_of_the_number_of_blocks() {
    let mut seen_largest = false;
    for records in 4_080..=4_110 {
        for others in 1..=40 {
            let mut draft = rules::plain();
            draft.variables.clear();
            draft.masters[0].data_length = 492;
            draft.masters[0].records = records;
            draft.masters[1].data_length = 234;
            draft.masters[1].records = others;
            let schema = draft.encode();
            agree(&schema);
            seen_largest |= schema_blocks(&schema) == 4096;
        }
    }
    assert!(seen_largest);
}

#[test]
fn changed_bytes_with_the_check_set_right() {
    for seed in 0..5_000 {
        let mut trace = Trace::new(seed);
        let mut random = Random::new(seed);
        let valid = schemas::any(&mut random).encode();
        for step in 0..40 {
            trace.step = step;
            let mut schema = valid.clone();
            for _ in 0..random.between(1, 3) {
                let at = random.below(BLOCK - 4);
                schema[at] = match random.below(3) {
                    0 => random.byte(),
                    1 => schema[random.below(BLOCK)],
                    _ => *random.pick(&[0, 1, 2, 3, 4, 5, 8, 12, 16, b'A', b'Z', b'0', b'9']),
                };
            }
            seal(&mut schema, 0);
            agree(&schema);
        }
    }
}

/// Two entries or two slots change places, or one is put over another: names
/// and letters are then repeated, or kinds mixed.
#[test]
fn entries_and_slots_moved() {
    for seed in 0..5_000 {
        let _trace = Trace::new(seed);
        let mut random = Random::new(seed);
        let mut schema = schemas::small(&mut random).encode();
        let (start, size, count) = *random.pick(&[(16, 48, 8), (32, 8, 46), (16, 4, 96)]);
        let from = start + size * random.below(count);
        let to = start + size * random.below(count);
        schema.copy_within(from..from + size, to);
        seal(&mut schema, 0);
        agree(&schema);
    }
}

#[test]
fn false_checks() {
    for seed in 0..2_000 {
        let _trace = Trace::new(seed);
        let mut random = Random::new(seed);
        let mut schema = schemas::small(&mut random).encode();
        schema[random.below(BLOCK)] ^= 1 << random.below(8);
        agree(&schema);
        seal(&mut schema, random.word());
        agree(&schema);
    }
}

#[test]
fn wrong_lengths() {
    let valid = rules::plain().encode();
    for length in (0..600).chain([1_023, 1_024, 1_025, 4_096]) {
        let mut schema = valid.clone();
        schema.resize(length, 0);
        let expected = if length == BLOCK {
            model_blocks(&valid)
        } else {
            0
        };
        assert_eq!(schema_blocks(&schema), expected, "length {length}");
    }
    let mut random = Random::new(1);
    for length in [0, 1, 511, 512, 513, 1_024] {
        agree(&random.bytes(length));
    }
}

#[test]
fn rubbish_under_a_true_check() {
    for seed in 0..2_000 {
        let _trace = Trace::new(seed);
        let mut random = Random::new(seed);
        let mut schema = random.bytes(BLOCK);
        schema[..3].copy_from_slice(&[1, 1, 0]);
        seal(&mut schema, 0);
        agree(&schema);
        agree(&random.bytes(BLOCK));
    }
}
