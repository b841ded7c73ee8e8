//! The definitions answer every call of the vectors as written there, and
//! mistakes in them would show.

use std::fs;
use yarugota_definitions::replay::{replay, Report};
use yarugota_definitions::rooms::Rooms;
use yarugota_definitions::vector_file;

fn run(rooms: &Rooms, enough: usize) -> Report {
    let vectors = fs::read_to_string(vector_file()).expect("the vector file");
    replay(rooms, &vectors, enough).unwrap_or_else(|fault| panic!("{fault}"))
}

#[test]
fn every_call_answers_as_written_down() {
    let report = run(&Rooms::ours(), 10);
    let differences = report.differences.join("\n");
    assert!(differences.is_empty(), "{differences}");
    assert_eq!((report.calls, report.lost), (3001, 0));
}

/// Reads one text of a module as another: the vectors must not agree any more.
fn is_noticed(module: &str, from: &str, to: &str) {
    let report = run(&Rooms::ours().changed(module, from, to), 1);
    assert_eq!(report.differences.len(), 1, "{module}: {to}");
}

// Document 01, "Easy ways to get it wrong", one by one.

#[test]
fn a_moved_stranger_with_its_prior_left_behind_is_noticed() {
    is_noticed(
        "masters/Root",
        "∷ (root_prior_side e (root_prior b e h) f ++ root_next_side e (root_next b e h) f)",
        "∷ root_next_side e (root_next b e h) f",
    );
}

#[test]
fn zero_for_a_deleted_first_record_is_noticed() {
    is_noticed(
        "calls/Reply",
        "or_link p r = cond (eqb r 0) (link_of p) r",
        "or_link p r = r",
    );
}

#[test]
fn a_record_linked_on_the_first_path_only_is_noticed() {
    is_noticed(
        "points/Points",
        "(add_master k) (add_link k) r) e.count",
        "(add_master k) (add_link k) r) 1",
    );
}

#[test]
fn one_linkage_field_for_two_paths_to_a_master_is_noticed() {
    is_noticed(
        "schema/Layout",
        "8 * links_before s (master_of s i j) (4 * i + j)",
        "8 * links_before s (master_of s i j) (4 * i)",
    );
}

#[test]
fn a_set_called_full_with_a_place_free_is_noticed() {
    is_noticed(
        "scan/Scan",
        "is_full b e = ltb e.records (lowest_free b e)",
        "is_full b e = is_live b e e.records",
    );
}
