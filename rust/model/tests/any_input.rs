//! Any input at all: every call ends with a status, a refused one changes
//! nothing, and one that is done leaves true checks on what it stored into.

use yarugota_model::{call, Operation, Schema, Status, BLOCK};
use yarugota_support::calls::CallMaker;
use yarugota_support::damage::{damage, rubbish};
use yarugota_support::{rules, schemas, Call, Fixture, Random, Trace};

/// Calls on stores that get damaged in between.
#[test]
fn damaged_data_bases() {
    let mut damaged = 0;
    for seed in 0..1500 {
        let mut trace = Trace::new(seed);
        let mut random = Random::new(seed);
        let mut fixture = Fixture::formatted(&schemas::small(&mut random).encode());
        let schema = fixture.decoded.clone();
        let maker = CallMaker::new(&mut random, &schema);
        if random.once_in(10) {
            rubbish(&mut random, &mut fixture.base);
        }
        for step in 0..150 {
            trace.step = step;
            if random.once_in(12) {
                damage(&mut random, &schema, &mut fixture.base);
            }
            let call = if random.once_in(10) {
                maker.faulty(&mut random, &fixture.base)
            } else {
                maker.likely(&mut random, &fixture.base)
            };
            if make(&mut fixture, &call) == Status::Damg {
                damaged += 1;
            }
        }
    }
    assert!(damaged > 1000, "{damaged}");
}

/// Makes the call and looks at the blocks that it changed.
fn make(fixture: &mut Fixture, call: &Call) -> Status {
    let before = fixture.base.clone();
    let answered = fixture.make(call);
    let blocks = before.chunks(BLOCK).zip(fixture.base.chunks(BLOCK));
    for (number, (before, after)) in blocks.enumerate() {
        let sealed = |block| yarugota_model::sealed(block, number as u32);
        if before != after {
            assert!(sealed(after), "{call:?} leaves a false check");
            let formatted = Operation::named(&call.op) == Some(Operation::Formt);
            assert!(sealed(before) || formatted, "{call:?} hides a false check");
        }
    }
    answered.status
}

/// Buffers of any length with any bytes, under schemas of any kind.
#[test]
fn any_bytes() {
    let broken = rules::broken();
    let mut done = 0;
    for seed in 0..20_000 {
        let _trace = Trace::new(seed);
        let mut random = Random::new(seed);
        let schema = match random.below(4) {
            0 => random.pick(&broken).schema.clone(),
            1 => some_bytes(&mut random, &[0, 1, 511, 512, 513]),
            _ => schemas::small(&mut random).encode(),
        };
        let right = Schema::decode(&schema).map_or(1024, |schema| schema.base_length());
        let lengths = [right, right, right, 0, 1, 512, right - 1, right + 1];
        let mut base = some_bytes(&mut random, &lengths);
        let mut given = any_call(&mut random);
        if any_call_is_done(&mut given, &schema, &mut base) {
            done += 1;
        }
    }
    assert!(done > 100, "{done}");
}

fn some_bytes(random: &mut Random, lengths: &[usize]) -> Vec<u8> {
    let length = *random.pick(lengths);
    random.bytes(length)
}

fn any_call(random: &mut Random) -> Call {
    let mut op = *random.pick(&Operation::ALL).name();
    if random.once_in(8) {
        op = [random.byte(), random.byte(), b'A', b'D', b'M'];
    }
    Call {
        op,
        set: random.word().to_be_bytes(),
        reference: random.word(),
        path: random.number().to_be_bytes(),
        key: some_bytes(random, &[0, 1, 4, 8, 12, 16, 17, 300]),
        area: some_bytes(random, &[0, 1, 4, 8, 20, 508, 600]),
    }
}

fn any_call_is_done(given: &mut Call, schema: &[u8], base: &mut [u8]) -> bool {
    let (area, before) = (given.area.clone(), base.to_vec());
    let (status, reference) = call(
        &given.op,
        &given.set,
        given.reference,
        &given.path,
        &given.key,
        &mut given.area,
        schema,
        base,
    );
    if status != Status::Done {
        assert_eq!(reference, given.reference);
        assert_eq!(given.area, area);
        assert!(base == before);
    }
    status == Status::Done
}
