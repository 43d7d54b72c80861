//! How the implementation reads what document 01, and document 02 after it, leave
//! to their reader.

mod common;

use common::*;
use differential::check::book::entry_width;
use differential::check::{all_findings, ACCEPTED};

const START: &str =
    "IV|7.2|\nIH|10|000001|\nIP|1|123456789|||||SMITH|JOHN||||||||||||||||20150301|||\n";
const FOOTER: &str = "IF|8|0|\n";

/// File E's patient with other lines.
fn patient(lines: &[String]) -> String {
    [START, &lines.concat(), FOOTER].concat()
}

fn ii(place: usize, changes: &[(&str, &str)]) -> String {
    let line =
        format!("II|{place}|123456789|A||20220901||TESTV|LA|IM|50|0.5|ML|GSK|L{place}||||||||\n");
    changes
        .iter()
        .fold(line, |line, (old, new)| line.replacen(old, new, 1))
}

fn ie(place: usize, antigen: &str, count: &str) -> String {
    format!("IE|{place}|123456789|{antigen}|{count}|\n")
}

/// Immunizations with one antigen each.
fn immunizations(changes: &[&[(&str, &str)]]) -> String {
    let group = |(place, changes): (usize, &&[(&str, &str)])| {
        ii(2 * place + 2, changes) + &ie(2 * place + 3, "TESTA", "1")
    };
    patient(&changes.iter().enumerate().map(group).collect::<Vec<_>>())
}

fn found(file: &str) -> Vec<(u32, u8, u8)> {
    findings(file, &free(9))
}

#[test]
fn the_version_is_a_text_and_empty_is_rule_1() {
    assert_eq!(found("IV||\nIH|1|1|\nIF|0|0|\n"), [(1, 2, 1)]);
    assert_eq!(found("IV|7.20|\nIH|1|1|\nIF|0|0|\n"), [(1, 2, 3)]);
}

#[test]
fn a_missing_line_is_the_fault_of_the_next() {
    let without_ie = [START, &ii(2, &[]), FOOTER].concat();
    assert_eq!(outcome(&without_ie, &[]).answer, shape(5, 6));
    assert_eq!(
        outcome(&[START, &ii(2, &[])].concat(), &[]).answer,
        shape(5, 7)
    );
    assert_eq!(outcome(&[START, FOOTER].concat(), &[]).answer, shape(4, 6));
    assert_eq!(outcome("IV|7.2|\r\nIH|1|1|\r\r\n", &[]).answer, shape(2, 2));
    assert_eq!(outcome("IV|7.2|\r\nIH|1|1|\r", &[]).answer, shape(2, 1));
    assert_eq!(outcome("IV|7.2|\n\nIH|1|1|\n", &[]).answer, shape(2, 3));
    assert_eq!(
        outcome("IV|7.2|\r\nIH|1|1|\r\nIF|0|0|\r\n", &[]).answer,
        accepted(0, 0, 0)
    );
}

#[test]
fn relaxed_is_asked_of_each_ii() {
    let file = immunizations(&[&[("||2022", "|H|2022"), ("GSK", "")], &[("GSK", "")]]);
    assert_eq!(found(&file), [(6, 14, 1)]);
}

#[test]
fn rule_9_is_judged_where_a_code_is_unknown() {
    assert_eq!(
        found(&immunizations(&[&[("LA|IM", "ZZ|PO")]])),
        [(4, 9, 4), (4, 9, 9)]
    );
    assert_eq!(found(&immunizations(&[&[("LA|IM", "Z1|PO")]])), [(4, 9, 2)]);
    assert_eq!(
        found(&immunizations(&[&[("LA|IM", "NO|PO")]])),
        [(4, 9, 9), (4, 10, 9)]
    );
}

#[test]
fn rule_10_needs_a_sound_partner() {
    let relaxed = |from, to| immunizations(&[&[("||2022", "|H|2022"), (from, to)]]);
    assert_eq!(found(&relaxed("LA|IM", "LA|")), [(4, 10, 10)]);
    assert_eq!(found(&relaxed("LA|IM", "|IM")), [(4, 9, 10)]);
    assert_eq!(found(&relaxed("LA|IM", "L1|")), [(4, 9, 2)]);
    assert_eq!(found(&relaxed("0.5|ML", "|ML")), [(4, 12, 10)]);
    assert_eq!(found(&relaxed("0.5|ML", "0.0|")), [(4, 12, 2)]);
    assert_eq!(found(&relaxed("LA|IM|50|0.5|ML|GSK|L2", "||||||")), []);
}

#[test]
fn an_unsound_lot_or_antigen_is_passed_over() {
    let unsound = immunizations(&[&[("L2", "L 1")], &[("L4", "L 1")]]);
    assert_eq!(found(&unsound), [(4, 15, 2), (6, 15, 2)]);
    let one_relaxed = immunizations(&[&[("L2", "")], &[("||2022", "|H|2022"), ("L4", "")]]);
    assert_eq!(found(&one_relaxed), [(4, 15, 1)]);
    let both_relaxed = immunizations(&[
        &[("||2022", "|H|2022"), ("L2", "")],
        &[("||2022", "|H|2022"), ("L4", "")],
    ]);
    assert_eq!(found(&both_relaxed), [(6, 15, 14)]);
    let antigens = patient(&[
        ii(2, &[]),
        ie(3, "T A", "1"),
        ie(4, "T A", "1"),
        ie(5, "TESTA", "1"),
    ]);
    assert_eq!(found(&antigens), [(5, 4, 2), (6, 4, 2)]);
}

#[test]
fn an_ii_in_no_block_ends_the_run() {
    let file = immunizations(&[&[], &[("|A|", "|X|"), ("L4", "L2")], &[("L6", "L2")]]);
    assert_eq!(found(&file), [(6, 4, 2), (8, 8, 15)]);
}

#[test]
fn antigens_with_counts_are_sets() {
    let twice = [
        ii(2, &[]),
        ie(3, "TESTA", "1"),
        ie(4, "TESTA", "01"),
        ii(5, &[]),
        ie(6, "TESTA", "1"),
    ];
    assert_eq!(found(&patient(&twice)), [(6, 4, 12)]);
    let two_counts = [
        ii(2, &[]),
        ie(3, "TESTA", "1"),
        ie(4, "TESTA", "2"),
        ii(5, &[]),
        ie(6, "TESTA", "1"),
    ];
    assert_eq!(found(&patient(&two_counts)), [(6, 4, 12), (7, 8, 13)]);
    let unsound = [
        ii(2, &[]),
        ie(3, "TESTA", "0"),
        ii(4, &[]),
        ie(5, "TESTA", "2"),
        ii(6, &[]),
        ie(7, "TESTA", "1"),
    ];
    assert_eq!(found(&patient(&unsound)), [(5, 5, 2)]);
}

/// What rules 12 to 14 find.
fn found_in_lists(lines: &[String]) -> Vec<(u32, u8, u8)> {
    let mut found = found(&patient(lines));
    found.retain(|(_, _, rule)| (12..=14).contains(rule));
    found
}

#[test]
fn long_lists_are_judged_as_short_ones() {
    let group = |place: usize, antigens: &[(usize, &str)]| {
        let ies = antigens
            .iter()
            .enumerate()
            .map(|(after, (number, count))| ie(place + 1 + after, &format!("A{number}"), count));
        ii(place, &[]) + &ies.collect::<String>()
    };
    let first: Vec<(usize, &str)> = (0..40).map(|number| (number, "1")).collect();
    let mut reverse: Vec<(usize, &str)> = (0..40).rev().map(|number| (number, "01")).collect();
    let two = |other: &[(usize, &str)]| found_in_lists(&[group(2, &first), group(43, other)]);
    assert_eq!(two(&reverse), []);
    assert_eq!(two(&reverse[1..]), [(45, 8, 13)]);
    reverse.push((20, "1"));
    assert_eq!(two(&reverse), [(86, 4, 12)]);
    reverse.push((20, "2"));
    assert_eq!(two(&reverse), [(45, 8, 13), (86, 4, 12), (87, 4, 12)]);
    let lots: Vec<String> = (1..=40)
        .map(|lot| ii(2 * lot, &[("L80", "L2")]) + &ie(2 * lot + 1, "TESTA", "1"))
        .collect();
    assert_eq!(found_in_lists(&lots), [(82, 15, 14)]);
}

#[test]
fn a_date_that_rule_8_refuses_is_sound() {
    let before_start = immunizations(&[&[("20220901", "19991231")]]);
    assert_eq!(found(&before_start), [(4, 6, 8), (4, 8, 5)]);
    let lent = live("123456789", "20221001", "TESTV");
    assert_eq!(
        findings(&immunizations(&[&[("20220901", "20221001")]]), &lent),
        [(4, 4, 16), (4, 6, 8)]
    );
}

#[test]
fn rule_11_without_a_sound_date_asks_only_for_absence() {
    let mut book = book_e();
    let pair = book.len() - 49 - 31;
    let file = immunizations(&[&[("20220901", "20220931")]]);
    let list = |book: &[u8]| all_findings(20220930, file.as_bytes(), book, &[]).len();
    assert_eq!(list(&book), 1);
    book[pair + 23..pair + 31].copy_from_slice(b"18000101");
    assert_eq!(list(&book), 1);
    book.drain(pair..pair + 31);
    assert_eq!(list(&book), 2);
}

/// The book of File E in which the entry of a kind ends on a day.
fn book_ended(kind: u8, end: u32) -> Vec<u8> {
    let (mut book, mut at) = (book_e(), 0);
    while book[at] != kind {
        at += entry_width(book[at]).unwrap();
    }
    let after = at + entry_width(kind).unwrap();
    book[after - 8..after].copy_from_slice(end.to_string().as_bytes());
    book
}

/// What is found, with this book, in a file of one immunization with this II 5.
fn found_by(book: &[u8], historical: &str, day: &str) -> Vec<(u32, u8, u8)> {
    let (indicator, given) = (format!("|A|{historical}|"), format!("|{day}|"));
    let file = immunizations(&[&[("|A||", &indicator), ("|20220901|", &given)]]);
    findings_by(book, &file, &[])
}

/// The place of what the entries of a kind are asked for in `found_by`.
fn place_of(kind: u8) -> (u32, u8, u8) {
    match kind {
        1 => (4, 8, 5),
        2 => (5, 4, 5),
        3 => (4, 11, 5),
        4 => (4, 14, 5),
        5 => (4, 13, 5),
        7 => (4, 11, 11),
        _ => (5, 4, 11),
    }
}

const KINDS_OF_AN_II: [u8; 7] = [1, 2, 3, 4, 5, 7, 8];

#[test]
fn a_code_or_pair_that_ended_before_today_asks_for_h() {
    for kind in KINDS_OF_AN_II {
        for (end, is_retired) in [
            (20220901, true),
            (20220929, true),
            (20220930, false),
            (20221001, false),
        ] {
            let book = book_ended(kind, end);
            let due = Vec::from_iter(is_retired.then_some(place_of(kind)));
            assert_eq!(found_by(&book, "", "20220901"), due, "{kind} {end}");
            assert_eq!(found_by(&book, "H", "20220901"), [], "{kind} {end} H");
        }
    }
}

#[test]
fn h_does_not_bring_back_the_days_after_an_end() {
    for kind in KINDS_OF_AN_II {
        let book = book_ended(kind, 20220831);
        for historical in ["", "H"] {
            assert_eq!(found_by(&book, historical, "20220901"), [place_of(kind)]);
        }
    }
    let before_start = [(4, 6, 8), (4, 8, 5)];
    assert_eq!(found_by(&book_e(), "H", "19991231"), before_start);
}

#[test]
fn an_unsound_indicator_is_not_h() {
    for kind in KINDS_OF_AN_II {
        for unsound in ["h", "HH", "X", " ", "H ", " H"] {
            let found = found_by(&book_ended(kind, 20220929), unsound, "20220901");
            assert_eq!(found, [(4, 5, 2), place_of(kind)], "{kind} {unsound:?}");
            let found = found_by(&book_ended(kind, 20220930), unsound, "20220901");
            assert_eq!(found, [(4, 5, 2)], "{kind} {unsound:?}");
        }
    }
}

#[test]
fn an_unsound_date_asks_nothing_of_an_end() {
    for kind in KINDS_OF_AN_II {
        let book = book_ended(kind, 20220929);
        assert_eq!(found_by(&book, "", "20220931"), [(4, 6, 2)]);
    }
}

#[test]
fn an_ie_goes_by_its_own_ii() {
    let book = book_ended(2, 20220929);
    let found = |flags: [&str; 2]| {
        let [one, other] = flags.map(|flag| format!("|{flag}|2022"));
        let file = immunizations(&[&[("||2022", &one)], &[("||2022", &other)]]);
        findings_by(&book, &file, &[])
    };
    assert_eq!(found(["", ""]), [(5, 4, 5), (7, 4, 5)]);
    assert_eq!(found(["H", ""]), [(7, 4, 5)]);
    assert_eq!(found(["", "H"]), [(5, 4, 5)]);
    assert_eq!(found(["H", "H"]), []);
}

#[test]
fn changes_and_deletes_ask_for_h_too() {
    let (book, lent) = (
        book_ended(4, 20220929),
        live("123456789", "20220901", "TESTV"),
    );
    for kind in ["C", "D"] {
        let file = |flag| immunizations(&[&[("|A||", &format!("|{kind}|{flag}|"))]]);
        assert_eq!(findings_by(&book, &file(""), &lent), [(4, 14, 5)]);
        assert_eq!(findings_by(&book, &file("H"), &lent), []);
    }
}

#[test]
fn in_and_ia_ask_for_their_day_alone() {
    let file = patient(&[
        ii(2, &[]),
        ie(3, "TESTA", "1"),
        "IN|4|123456789|A|20220901|REF|1||\n".to_string(),
        "IA|5|123456789|TESTA|\n".to_string(),
    ]);
    let found = |reason: u32, antigen: u32| {
        let mut book = book_ended(2, antigen);
        // Before the two pairs.
        let place = book.len() - 49 - 31;
        book.splice(place..place, format!("\x06REF{reason}").into_bytes());
        findings_by(&book, &file, &[])
    };
    assert_eq!(found(20220901, 20220930), []);
    assert_eq!(found(20220929, 20220901), [(5, 4, 5)]);
    assert_eq!(found(20220831, 20220930), [(6, 6, 5)]);
    assert_eq!(found(99999999, 20220831), [(5, 4, 5), (7, 4, 5)]);
}

#[test]
fn numbers_are_compared_as_numbers() {
    let zeros = immunizations(&[&[("II|2|", "II|00002|")]]);
    assert_eq!(outcome(&zeros, &free(1)).answer, accepted(1, 0, 0));
    assert_eq!(found(&immunizations(&[&[("II|2|", "II|1|")]])), [(4, 2, 7)]);
    assert_eq!(
        found(&immunizations(&[&[("II|2|", "II|000002|")]])),
        [(4, 2, 2)]
    );
}

#[test]
fn case_counts_and_a_blank_is_not_empty() {
    assert_eq!(found(&immunizations(&[&[("|LA|", "|la|")]])), [(4, 9, 4)]);
    assert_eq!(
        found(&immunizations(&[&[("|GSK|", "|gsk|")]])),
        [(4, 14, 4)]
    );
    assert_eq!(
        found(&immunizations(&[&[("||2022", "| |2022")]])),
        [(4, 5, 2)]
    );
    assert_eq!(found("IV|7.2|\nIH|aZ0|zA9|\nIF|0| |\n"), []);
    assert_eq!(outcome("IV |7.2|\n", &[]).answer, shape(1, 4));
}

#[test]
fn a_pair_needs_no_entries_and_codes_are_any_bytes() {
    let mut case = case("IV|7.2|\nIH|1|1|\nIF|0|0|\n", &[]);
    case.book = format!("\x04~!1{OPEN}\x05#  {{{OPEN}", OPEN = 99999999).into_bytes();
    assert_ne!(case.outcome().answer.answer, ACCEPTED);
    case.book = format!(
        "\x04~!1{OPEN}\x05#{{  {OPEN}\x07{:20}00{OPEN}",
        "|",
        OPEN = 99999999
    )
    .into_bytes();
    assert_eq!(case.outcome().answer, accepted(0, 0, 0));
}

#[test]
fn all_in_lines_count() {
    let lines = [
        "IN|2|123456789|D|20220901|REF|1||\nIA|3|123456789|TESTA|\n".to_string(),
        "IN|4|123456789|A|20220901|REF|1||\nIA|5|123456789|TESTA|\n".to_string(),
    ];
    let mut case = case(&patient(&lines), &[]);
    assert_eq!(findings(&patient(&lines), &[]), [(4, 6, 4), (6, 6, 4)]);
    let place = case.book.len() - 49 - 31;
    case.book.splice(place..place, *b"\x06REF99999999");
    assert_eq!(case.outcome().answer.not_immunized, 2);
}
