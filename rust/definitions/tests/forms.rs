//! The forms that definitions are written in, each by a definition of the room
//! `forms`, which `forms.txt` beside this file is the one page of. No prover
//! reads it, so it stands in no crate, and its name is not a definition file's:
//! the gate refuses such a file anywhere but in a crate.

use yarugota_definitions::compiler::compile;
use yarugota_definitions::evaluator::{Evaluator, Stuck};
use yarugota_definitions::rooms::Rooms;
use yarugota_definitions::values::Value;

/// The number that a definition of the room makes of a number.
fn made(name: &str, number: u64) -> Result<u64, Stuck> {
    let rooms = Rooms::ours().with("forms/Forms", include_str!("forms.txt"));
    let name = format!("forms/Forms.{name}");
    let program = compile(&rooms, &[&name], &[]);
    let program = program.unwrap_or_else(|fault| panic!("{fault}"));
    let definition = program.definition(&name).expect("what was asked for");
    let evaluator = Evaluator::new(&program);
    let value = evaluator.call(definition, vec![Value::Number(number).into()])?;
    evaluator.number(value)
}

#[test]
fn both_sides_of_a_pair() {
    assert_eq!(made("gathered", 5).unwrap(), 6 + 2 + 10);
}

#[test]
fn constructors_with_and_without_arguments() {
    assert_eq!(made("surfaces", 5).unwrap(), 1 + 25 + 5 + 15);
}

#[test]
fn records_of_functions() {
    assert_eq!(made("ruled", 3).unwrap(), 0);
    assert_eq!(made("ruled", 4).unwrap(), 14);
    assert_eq!(made("ruled", 6).unwrap(), 16 + 10 * 100);
    assert_eq!(made("ruled", 7).unwrap(), 17 + 10 * 100 + 7 * 10_000);
}

#[test]
fn the_row_of_a_table() {
    assert_eq!(made("from_table", 1).unwrap(), 10);
    assert_eq!(made("from_table", 3).unwrap(), 30);
    assert_eq!(made("from_table", 4).unwrap(), 0);
}

// What a table has for others is not looked at, nor are the rows behind.
#[test]
fn no_row_is_evaluated_but_the_one_that_is_taken() {
    assert!(made("from_table", 2).is_err());
    assert_eq!(made("from_guarded_table", 1).unwrap(), 1);
    assert!(made("from_guarded_table", 2).is_err());
}

#[test]
fn a_choice_in_words() {
    assert_eq!(made("graded", 2).unwrap(), 1);
    assert_eq!(made("graded", 3).unwrap(), 2);
    assert_eq!(made("graded", 4).unwrap(), 7);
    assert_eq!(made("guarded", 1).unwrap(), 1);
    assert!(made("guarded", 2).is_err());
}

#[test]
fn elements_of_a_list_and_past_its_end() {
    assert_eq!(made("picked", 1).unwrap(), 5 + 20);
    assert_eq!(made("picked", 2).unwrap(), 30);
}
