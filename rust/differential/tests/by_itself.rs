//! The proved store judged without the model.

use yarugota_differential::{Direct, Store};
use yarugota_support::runs::{run, Seen};
use yarugota_support::vectors::replay;

/// The recorded calls, as a third model has answered them.
#[test]
fn the_vectors() {
    let mut store = Direct::new(Store::chosen());
    let text = include_str!("../../vectors/calls-3000.txt");
    let replay = replay(text, |call, schema, base| store.call(call, schema, base)).unwrap();
    assert_eq!(replay.differences, []);
    assert_eq!(replay.calls, 3001);
}

/// The store's own answers beside plain lists of what it was given.
#[test]
fn plain_lists() {
    let mut store = Direct::new(Store::chosen());
    let mut seen = Seen::default();
    for seed in 1000..1008 {
        let store = |call: &mut _, schema: &_, base: &mut _| store.call(call, schema, base);
        run(seed, 100, store, &mut seen);
    }
    assert!(seen.synonyms_added > 0);
}
