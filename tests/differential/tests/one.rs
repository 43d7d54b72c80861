//! What is printed of one submission, in the form of document 01's program.

mod common;

use common::*;
use differential::case::Case;
use differential::one::printed;

#[test]
fn p2_as_the_document_prints_it() {
    let after = outcome(&file_e(&[(6, "L2", "L1")]), &[]);
    assert_eq!(printed(&after), "6 0 0 1 0 0 0 0\n6 15 14\n");
}

#[test]
fn nothing_but_the_numbers_without_findings() {
    assert_eq!(printed(&outcome(FILE_E, &free(1))), "0 0 0 0 1 0 0 0\n");
    assert_eq!(printed(&outcome("", &[])), "5 1 7 0 0 0 0 0\n");
}

#[test]
fn the_findings_kept_alone() {
    let again = Case {
        room: 11,
        ..case(FILE_E, &live("123456789", "20220901", "TESTV"))
    };
    assert_eq!(printed(&again.outcome()), "6 0 0 2 0 0 0 0\n4 4 16\n");
}
