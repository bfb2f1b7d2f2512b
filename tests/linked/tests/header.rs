//! include/reedbiscuit.h says the documents' numbers.

use second::limits::*;

const HEADER: &str = include_str!("../../../include/reedbiscuit.h");

/// The constants of the header, in its order.
fn constants() -> Vec<(&'static str, usize)> {
    let constant = |line: &'static str| {
        let (name, rest) = line.trim().split_once(" = ")?;
        let digits = rest.split(|c: char| !c.is_ascii_digit()).next()?;
        Some((name, digits.parse().ok()?))
    };
    HEADER.lines().filter_map(constant).collect()
}

/// Document 01's, and those of document 02 that have landed.
const NUMBERS: usize = 19;

#[test]
fn the_numbers_given_back_are_those_of_the_documents_in_order() {
    let constants = constants();
    let numbers: Vec<usize> = constants.iter().take(NUMBERS).map(|(_, number)| *number).collect();
    assert_eq!(numbers, Vec::from_iter((0..=17).chain([37])));
    let named = [constants[0].0, constants[17].0, constants[18].0];
    assert_eq!(named, ["REED_DONE", "REED_BAD_FILE", "REED_LIST_TOO_LONG"]);
}

#[test]
fn the_limits_are_those_of_the_second_implementation() {
    let limits = [
        ("REED_FILE_VERSION", FILE_VERSION as usize),
        ("REED_FILE_SIDE_WORDS", FILE_SIDE_WORDS),
        ("REED_FILE_SUBJECT_WORDS", FILE_SUBJECT_WORDS),
        ("REED_FILE_BYTES", FILE_BYTES),
        ("REED_NODE_WORDS", NODE_WORDS),
        ("REED_DEPTH", DEPTH),
        ("REED_ARGUMENTS", ARGUMENTS),
        ("REED_SIDE_NODES", SIDE_NODES),
        ("REED_SIDE_WORDS", NODE_WORDS * SIDE_NODES),
        ("REED_METAVARIABLES", METAVARIABLES),
        ("REED_CODE_WORDS", CODE_WORDS),
        ("REED_SUBJECT_NODES", SUBJECT_NODES),
        ("REED_SUBJECT_WORDS", NODE_WORDS * SUBJECT_NODES),
        ("REED_RESULT_NODES", RESULT_NODES),
        ("REED_RESULT_WORDS", NODE_WORDS * RESULT_NODES),
        ("REED_INDEX", INDEX as usize),
        ("REED_WORKING_WORDS", WORKING_WORDS),
        ("REED_LIST_RULES", LIST_RULES),
        ("REED_REWRITES", REWRITES as usize),
        ("REED_LIST_WORKING_WORDS", LIST_WORKING_WORDS),
    ];
    assert_eq!(constants()[NUMBERS..], limits);
}
