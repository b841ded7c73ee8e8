//! Calls with what another model of document 01 answers.

use yarugota_support::{model, vectors};

#[test]
fn every_call_answers_as_written_down() {
    let text = include_str!("../../vectors/calls-3000.txt");
    let replay = vectors::replay(text, model).unwrap();
    assert_eq!(replay.calls, 3001);
    assert!(replay.differences.is_empty(), "{:?}", replay.differences);
}
