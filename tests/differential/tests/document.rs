//! Document 01's own cases against the implementation: the examples at the
//! edges, and the errors seen or feared.

mod common;

use common::*;
use differential::check::date::is_date;
use differential::check::{Answer, FINDINGS, FULL};

#[test]
fn p1_file_e_adds_one() {
    let after = outcome(FILE_E, &free(1));
    assert_eq!(after.answer, accepted(1, 0, 0));
    assert_eq!(after.ledger, live("123456789", "20220901", "TESTV"));
}

#[test]
fn p2_lot_again() {
    let file = file_e(&[(6, "L2", "L1")]);
    let after = outcome(&file, &free(1));
    assert_eq!(
        after.answer,
        Answer {
            answer: FINDINGS,
            findings: 1,
            ..Answer::default()
        }
    );
    assert_eq!(after.area[..7], [14, 6, 0, 0, 0, 15, 0xEE]);
    assert_eq!(after.ledger, free(1));
    assert_eq!(findings(&file, &[]), [(6, 15, 14)]);
}

#[test]
fn p3_counts_are_numbers() {
    assert_eq!(
        findings(&file_e(&[(7, "|1|", "|2|")]), &free(1)),
        [(6, 8, 13)]
    );
    assert_eq!(
        outcome(&file_e(&[(7, "|1|", "|01|")]), &free(1)).answer,
        accepted(1, 0, 0)
    );
}

#[test]
fn p4_file_e_again() {
    let left = outcome(FILE_E, &free(1)).ledger;
    assert_eq!(findings(FILE_E, &left), [(4, 4, 16), (6, 4, 16)]);
}

#[test]
fn p5_zero_slots() {
    assert_eq!(
        outcome(FILE_E, &[]).answer,
        Answer {
            answer: FULL,
            ..Answer::default()
        }
    );
}

#[test]
fn p6_empty_file() {
    assert_eq!(outcome("", &[]).answer, shape(1, 7));
}

#[test]
fn p7_dates() {
    assert!(is_date(20240229));
    assert!(!is_date(20230229));
}

#[test]
fn p8_dosages() {
    for sound in ["0.01", "999999.99"] {
        assert_eq!(
            findings(&file_e(&[(4, "0.5", sound)]), &free(1)),
            [],
            "{sound}"
        );
    }
    for unsound in ["0.00", "1000000", ".5"] {
        assert_eq!(
            findings(&file_e(&[(4, "0.5", unsound)]), &free(1)),
            [(4, 12, 2)],
            "{unsound}"
        );
    }
}

#[test]
fn p9_reasons() {
    let with_02 = |text: &str| {
        let mut case = case(&file_e(&[(4, "|50|", &format!("|{text}|"))]), &free(1));
        let entries = [&case.book[..66], b"\x030299999999", &case.book[66..]].concat();
        let pair = entries.len() - 49 - 31;
        let added = format!("\x07{:20}0299999999", "TESTV").into_bytes();
        case.book = [&entries[..pair], &added, &entries[pair..]].concat();
        case.outcome().answer
    };
    assert_eq!(with_02("2"), accepted(1, 0, 0));
    assert_eq!(with_02(" 2"), accepted(1, 0, 0));
    assert_eq!(with_02("02"), accepted(1, 0, 0));
    assert_eq!(
        findings(&file_e(&[(4, "|50|", "|2|")]), &free(1)),
        [(4, 11, 4)]
    );
    assert_eq!(
        findings(&file_e(&[(4, "|50|", "|  |")]), &free(1)),
        [(4, 11, 2)]
    );
}

#[test]
fn p10_oral_in_the_arm() {
    assert_eq!(
        findings(&file_e(&[(4, "|IM|", "|PO|")]), &free(1)),
        [(4, 9, 9)]
    );
}

#[test]
fn p11_room_freed_serves_the_same_file() {
    let one_of_each = "\
IV|7.2|
IH|10|000001|
IP|1|123456789|||||SMITH|JOHN||||||||||||||||20150301|||
II|2|123456789|D||20220901||TESTV|LA|IM|50|0.5|ML|GSK|L1||||||||
IE|3|123456789|TESTA|1|
II|4|123456789|A||20220902||TESTV|LA|IM|50|0.5|ML|GSK|L2||||||||
IE|5|123456789|TESTA|1|
IF|8|0|
";
    let after = outcome(one_of_each, &live("123456789", "20220901", "TESTV"));
    assert_eq!(after.answer, accepted(1, 0, 1));
    assert_eq!(after.ledger, live("123456789", "20220902", "TESTV"));
}

#[test]
fn p12_footer_without_its_line_feed() {
    assert_eq!(outcome(FILE_E.trim_end(), &free(1)).answer, shape(8, 1));
}

/// Joining by event across an IP record.
#[test]
fn an_ip_record_ends_a_block() {
    let file = "\
IV|7.2|
IH|10|000001|
IP|1|123456789|||||SMITH|JOHN||||||||||||||||20150301|||
II|2|123456789|A||20220901||TESTV|LA|IM|50|0.5|ML|GSK|L1||||||||
IE|3|123456789|TESTA|1|
IP|4|123456789|||||SMITH|JOHN||||||||||||||||20150301|||
II|5|123456789|A||20220901||TESTV|LA|IM|50|0.5|ML|GSK|L1||||||||
IE|6|123456789|TESTA|2|
IF|8|0|
";
    assert_eq!(findings(file, &free(2)), [(7, 8, 15)]);
}

/// Comparing with the previous line only and missing a repeat further on.
#[test]
fn a_repeat_further_on_is_found() {
    let ii = |place: usize, day: &str, lot: &str| {
        format!(
            "II|{place}|123456789|A||{day}||TESTV|LA|IM|50|0.5|ML|GSK|{lot}||||||||\nIE|{}|123456789|TESTA|1|\n",
            place + 1
        )
    };
    let start: String = FILE_E
        .lines()
        .take(3)
        .map(|line| format!("{line}\n"))
        .collect();
    let file = |groups: &[String]| [&start[..], &groups.concat(), "IF|8|0|\n"].concat();
    let first_again = file(&[
        ii(2, "20220901", "L1"),
        ii(4, "20220902", "L1"),
        ii(6, "20220901", "L2"),
    ]);
    assert_eq!(findings(&first_again, &free(3)), [(8, 8, 15)]);
    let lot_again = file(&[
        ii(2, "20220901", "L1"),
        ii(4, "20220901", "L2"),
        ii(6, "20220901", "L1"),
    ]);
    assert_eq!(findings(&lot_again, &free(3)), [(8, 15, 14)]);
}

/// Judging an add against a ledger already altered by the same file.
#[test]
fn an_add_is_judged_against_the_ledger_as_lent() {
    let file = file_e(&[(4, "|A|", "|D|")]);
    let lent = live("123456789", "20220901", "TESTV");
    assert_eq!(findings(&file, &lent), [(6, 4, 16), (6, 8, 15)]);
}

/// Comparing counts as text, or lots as numbers.
#[test]
fn counts_are_numbers_and_lots_are_texts() {
    assert_eq!(
        outcome(&file_e(&[(5, "|1|", "|01|")]), &free(1)).answer,
        accepted(1, 0, 0)
    );
    assert_eq!(
        outcome(&file_e(&[(4, "L1", "1"), (6, "L2", "01")]), &free(1)).answer,
        accepted(1, 0, 0)
    );
}

/// Stopping at the first finding, or listing a later rule on an unsound field.
#[test]
fn all_findings_and_no_later_rule_on_an_unsound_field() {
    let file = file_e(&[
        (1, "7.2", "7.1"),
        (3, "20150301", "20230229"),
        (4, "20220901", "20230901"),
        (8, "|8|", "||"),
    ]);
    assert_eq!(
        findings(&file, &free(1)),
        [(1, 2, 3), (3, 25, 2), (4, 6, 8), (8, 2, 1)]
    );
    let unsound_code = file_e(&[(4, "TESTV", "TEST V"), (6, "TESTV", "OTHER")]);
    assert_eq!(findings(&unsound_code, &free(1)), [(4, 8, 2), (6, 8, 4)]);
}

/// Refusing FULL by order of lines, when a later delete makes the room.
#[test]
fn a_later_delete_makes_the_room() {
    let file = file_e(&[(4, "20220901", "20220902"), (6, "|A|", "|D|")]);
    let after = outcome(&file, &live("123456789", "20220901", "TESTV"));
    assert_eq!(after.answer, accepted(1, 0, 1));
    assert_eq!(after.ledger, live("123456789", "20220902", "TESTV"));
}
