//! Files written from sound records are accepted, whatever order the lots were
//! entered in.

mod common;

use common::charts::chart_of;
use common::*;
use differential::case::writing::WriteCase;
use differential::case::Case;
use differential::check::{ACCEPTED, FILE_MOST};
use differential::generate;
use differential::random::Random;
use differential::write;

fn writing(case: &Case, chart: Vec<u8>) -> WriteCase {
    WriteCase {
        prefix: b"10".to_vec(),
        batch: b"000001".to_vec(),
        chart,
        room: FILE_MOST,
        today: case.today,
        book: case.book.clone(),
        ledger: case.ledger.clone(),
    }
}

/// The file of a chart in the order given.
fn as_given(chart: &[u8]) -> String {
    let records = write::read(b"10", b"000001", chart).expect("a chart");
    let file = write::file_in_order(b"10", b"000001", records.iter(), FILE_MOST);
    String::from_utf8(file.expect("a short file")).expect("ASCII")
}

fn as_written(chart: &[u8]) -> String {
    let file = writing(&case("", &[]), chart.to_vec()).file();
    String::from_utf8(file.expect("a short file")).expect("ASCII")
}

/// Two visits of one traveller and one of another. The clinic enters a lot when its
/// box turns up, so that the lots of a visit are scattered over the day's list.
const BOXES: [(&str, &str, &str); 8] = [
    ("123456789", "20220901", "AHAV-1"),
    ("123456789", "20220915", "BHAV-7"),
    ("123456789", "20220901", "AHAV-2"),
    ("123456789", "20220915", "BHAV-8"),
    ("123456789", "20220901", "AHAV-3"),
    ("987654321", "20220901", "AHAV-1"),
    ("987654321", "20220902", "AHAV-2"),
    ("987654321", "20220901", "AHAV-9"),
];

fn chart_of_boxes() -> Vec<u8> {
    let mut lines = String::new();
    let mut patient = "";
    for (uli, date, lot) in BOXES {
        if uli != patient {
            lines += &format!("IP|0|{uli}|||||SMITH|JOHN||||||||||||||||20150301|||\n");
            patient = uli;
        }
        lines += &format!("II|0|{uli}|A||{date}||TESTV|LA|IM|50|0.5|ML|GSK|{lot}||||||||\n");
        lines += &format!("IE|0|{uli}|TESTA|1|\n");
    }
    chart_of(&lines).expect("texts that fit")
}

#[test]
fn scattered_lots_become_one_block_a_visit() {
    let chart = chart_of_boxes();
    let file = as_written(&chart);
    assert_eq!(outcome(&file, &free(4)).answer, accepted(4, 0, 0));
    let visits: Vec<(&str, &str, &str)> = file
        .lines()
        .filter(|line| line.starts_with("II|"))
        .map(|line| {
            let fields: Vec<&str> = line.split('|').collect();
            (fields[2], fields[5], fields[14])
        })
        .collect();
    let entered = [0, 2, 4, 1, 3, 5, 7, 6].map(|place| BOXES[place]);
    assert_eq!(visits, entered);
}

#[test]
fn in_the_order_entered_rule_15_refuses_them() {
    let found = findings(&as_given(&chart_of_boxes()), &free(4));
    let again: Vec<(u32, u8, u8)> = [8, 10, 12, 19].map(|line| (line, 8, 15)).to_vec();
    assert_eq!(found, again);
}

#[test]
fn two_records_of_a_patient_keep_their_lots_apart() {
    let mut chart = chart_of_boxes();
    let patient = chart[..437].to_vec();
    let behind_two = 437 + 2 * (1700 + 27);
    chart.splice(behind_two..behind_two, patient);
    let found = findings(&as_written(&chart), &free(4));
    assert_eq!(found, [9, 11, 13].map(|line| (line, 8, 15)));
}

/// Generated submissions that the check accepts and a chart can hold: charted with
/// the immunizations of each patient in any order and written, they are accepted
/// again, with the same numbers and the same ledger after.
#[test]
fn accepted_records_are_accepted_in_any_order_of_lots() {
    let mut tried = 0;
    for number in 0..20_000 {
        let case = generate::case(5, number);
        let before = case.outcome();
        if before.answer.answer != ACCEPTED || case.file.len() > 100_000 {
            continue;
        }
        let lines = String::from_utf8(case.file.clone())
            .expect("ASCII")
            .replace('\r', "");
        let has_blanks = lines.contains("| ") || lines.contains(" |");
        let Some(chart) = chart_of(&lines).filter(|_| !has_blanks) else {
            continue;
        };
        let mut random = Random::of(number, 1);
        let scattered = writing(&case, scattered(&mut random, &chart));
        let file = scattered.file().expect("a short file");
        let after = scattered.check_of(&file).outcome();
        assert_eq!(after.answer, before.answer, "case {number}");
        assert_eq!(after.ledger, before.ledger, "case {number}");
        tried += 1;
    }
    assert!(tried > 500, "{tried} tried");
}

/// The chart with the immunizations of each patient in any order.
fn scattered(random: &mut Random, chart: &[u8]) -> Vec<u8> {
    let lengths = [0, 437, 1700, 27, 28, 25];
    let mut bytes = Vec::new();
    let mut immunizations: Vec<Vec<u8>> = Vec::new();
    let mut rest = chart;
    while let [kind, ..] = *rest {
        let (record, behind) = rest.split_at(lengths[usize::from(kind)]);
        match kind {
            2 => immunizations.push(record.to_vec()),
            3 => immunizations.last_mut().expect("an II").extend(record),
            _ => {
                random.shuffle(&mut immunizations);
                bytes.extend(immunizations.drain(..).flatten());
                bytes.extend(record);
            }
        }
        rest = behind;
    }
    random.shuffle(&mut immunizations);
    bytes.extend(immunizations.drain(..).flatten());
    bytes
}
