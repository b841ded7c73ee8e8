//! The definitions beside the model, on calls of neither's making: schemas at
//! the edges of every rule, and random calls on sound and damaged data bases.
//! The vectors hardly reach the rules of the schema and the damage of DEL-M.

use yarugota_definitions::program::Program;
use yarugota_definitions::rooms::Rooms;
use yarugota_definitions::store::{self, read_definitions, Outcome, Store};
use yarugota_model::{Schema, Status, BLOCK};
use yarugota_support::calls::CallMaker;
use yarugota_support::damage::damage;
use yarugota_support::{model, rules, schemas, Call, Random, Trace};

const SEEDS: u64 = 24;
const CALLS_UP: usize = 60;
const ROUNDS: usize = 20;
const CALLS_ON_DAMAGE: usize = 4;

/// Larger data bases are left out: SINON compares all keys of a set in pairs.
const MOST_BLOCKS: usize = 20;

fn definitions() -> Program {
    read_definitions(&Rooms::ours()).unwrap_or_else(|fault| panic!("{fault}"))
}

/// Makes the call on both and panics where they differ. The data base is left
/// as the call leaves it.
fn compare(store: &Store, call: &Call, schema: &[u8], base: &mut [u8]) -> Status {
    let given = store::Call {
        operation: call.op.to_vec(),
        set: call.set.to_vec(),
        reference: call.reference,
        path: call.path.to_vec(),
        key: call.key.clone(),
        area: call.area.clone(),
    };
    let defined = store.call(&given, schema, base).unwrap();
    let mut made = call.clone();
    let (status, reference) = model(&mut made, schema, base);
    let modelled = Outcome {
        status: status as u64,
        reference: reference.into(),
        area: made.area,
        base: base.to_vec(),
    };
    assert!(
        defined == modelled,
        "{call:?}\n  model: {status:?}, {reference}, area {:?}\n  definitions: {}, {}, area {:?}",
        modelled.area,
        defined.status,
        defined.reference,
        defined.area,
    );
    status
}

#[test]
fn every_rule_of_the_schema() {
    let program = definitions();
    let store = Store::new(&program).unwrap();
    for row in rules::broken() {
        let status = compare(&store, &Call::plain(b"FORMT"), &row.schema, &mut []);
        assert_eq!(status, Status::Schm, "{}", row.what);
    }
    for (what, draft) in rules::kept() {
        let status = compare(&store, &Call::plain(b"FORMT"), &draft.encode(), &mut []);
        assert_eq!(status, Status::Size, "{what}");
    }
}

#[test]
fn random_calls_on_sound_and_damaged_data_bases() {
    let program = definitions();
    let store = Store::new(&program).unwrap();
    for seed in 0..SEEDS {
        let mut trace = Trace::new(seed);
        let mut random = Random::new(seed);
        let bytes = schemas::small(&mut random).encode();
        let schema = Schema::decode(&bytes).expect("a schema that keeps every rule");
        if schema.base_length() > MOST_BLOCKS * BLOCK {
            continue;
        }
        let mut base = vec![0; schema.base_length()];
        compare(&store, &Call::plain(b"FORMT"), &bytes, &mut base);
        let maker = CallMaker::new(&mut random, &schema);
        for _ in 0..CALLS_UP {
            trace.step += 1;
            let call = maker.likely(&mut random, &base);
            compare(&store, &call, &bytes, &mut base);
        }
        for _ in 0..ROUNDS {
            let mut base = base.clone();
            for _ in 0..random.between(1, 2) {
                damage(&mut random, &schema, &mut base);
            }
            compare(&store, &Call::plain(b"SINON"), &bytes, &mut base);
            for _ in 0..CALLS_ON_DAMAGE {
                trace.step += 1;
                let call = match random.once_in(8) {
                    true => maker.faulty(&mut random, &base),
                    false => maker.likely(&mut random, &base),
                };
                compare(&store, &call, &bytes, &mut base);
            }
        }
    }
}
