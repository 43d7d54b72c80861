//! What holds of every chart, tried on generated ones, and that they tell a writer
//! with a slip.

mod common;

use common::charts::chart_of;
use common::plain;
use common::slips::{Slip, SLIPS};
use differential::case::writing::{WriteCase, WriteVerdict};
use differential::driver::Run;
use differential::generate::charts;
use differential::program::Program;
use differential::shrink::shrink;
use differential::write;
use std::collections::HashSet;

/// Generated cases that are not long.
fn small_cases(count: u64) -> impl Iterator<Item = WriteCase> {
    let cases = (0..count).map(|number| charts::case(7, number));
    cases.filter(|case| case.chart.len() < 200_000)
}

#[test]
fn the_plainest_writer_says_the_same() {
    for case in small_cases(6_000) {
        assert_eq!(plain::write(&case, Slip::None), case.outcome());
    }
}

#[test]
fn every_slip_is_told() {
    let cases: Vec<WriteCase> = (0..5_000)
        .map(|number| charts::case(1, number))
        .filter(|case| case.chart.len() < 100_000 || case.file().is_none())
        .collect();
    for slip in SLIPS {
        let is_told = cases.iter().any(|case| {
            let (written, area) = plain::write(case, slip);
            case.verdict_of(written, &area) != case.verdict()
        });
        assert!(is_told, "{slip:?}");
    }
}

#[test]
fn a_written_file_charted_again_gives_itself() {
    for case in small_cases(3_000) {
        let Some(file) = case.file() else {
            continue;
        };
        let again = WriteCase {
            chart: chart_of(std::str::from_utf8(&file).unwrap()).unwrap(),
            ..case
        };
        assert_eq!(again.file(), Some(file));
    }
}

#[test]
fn every_record_once_and_every_event_in_one_block() {
    for case in small_cases(3_000).filter(|case| case.file().is_some()) {
        let file = String::from_utf8(case.file().unwrap()).unwrap();
        let records = write::read(&case.prefix, &case.batch, &case.chart).unwrap();
        let given = write::file_in_order(&case.prefix, &case.batch, records.iter(), usize::MAX);
        let given = String::from_utf8(given.unwrap()).unwrap();
        assert_eq!(unnumbered(&file), unnumbered(&given));
        let mut met = HashSet::new();
        let mut before = None;
        for line in file.lines() {
            let fields: Vec<&str> = line.split('|').collect();
            match fields[0] {
                "IP" => {
                    met.clear();
                    before = None;
                }
                "II" => {
                    let event = [fields[2], fields[3], fields[5], fields[7]].map(str::to_string);
                    assert!(before.as_ref() == Some(&event) || met.insert(event.clone()));
                    before = Some(event);
                }
                _ => (),
            }
        }
    }
}

/// The lines without their numbers, sorted.
fn unnumbered(file: &str) -> Vec<String> {
    let mut lines: Vec<String> = file
        .lines()
        .map(|line| {
            let mut fields: Vec<&str> = line.split('|').collect();
            fields.remove(1);
            fields.join("|")
        })
        .collect();
    lines.sort();
    lines
}

#[test]
fn charts_reach_all_that_the_writer_meets() {
    let mut run = Run::new(20);
    run.by_itself::<WriteCase>(20_000);
    assert_eq!((run.passed, run.failed), (20_000, 0));
    assert_eq!(run.coverage.missing_of_writer(), Vec::<String>::new());
}

#[test]
fn the_stream_gives_back_its_cases() {
    let cases: Vec<WriteCase> = (200..260).map(|number| charts::case(3, number)).collect();
    let mut bytes = Vec::new();
    cases
        .iter()
        .for_each(|case| case.write(&mut bytes).unwrap());
    let mut stream = &bytes[..];
    for case in &cases {
        assert_eq!(WriteCase::read(&mut stream).unwrap().as_ref(), Some(case));
        let verdict = case.verdict();
        assert_eq!(WriteVerdict::of_line(&verdict.line()), Some(verdict));
    }
    assert_eq!(WriteCase::read(&mut stream).unwrap(), None);
}

/// The batch program of this crate, its output sent through a script of sed.
fn batch_program(script: &str) -> Program {
    let program = env!("CARGO_BIN_EXE_differential");
    let command = format!("'{program}' 1 1 --batch $0 | sed '{script}'");
    Program {
        command: ["sh", "-c", &command].map(str::to_string).to_vec(),
    }
}

#[test]
fn a_run_counts_a_wrong_line_as_failed() {
    let counts = |script: &str| {
        let mut run = Run::new(5);
        run.against::<WriteCase>(&batch_program(script), 12);
        (run.passed, run.failed)
    };
    assert_eq!(counts(""), (12, 0));
    let another_answer = "1s/^[0-9]/7/";
    assert_eq!(counts(another_answer).1, 1);
    let another_area = "2{s/[0-7] [0-9]/8 1/;t;s/. [0-9]/0 1/}";
    assert_ne!(counts(another_area).1, 0);
}

#[test]
fn a_smaller_chart_keeps_its_property() {
    let case = charts::case(1, 28);
    let whole = case.file().expect("a file").len();
    let has_antigens = |case: &WriteCase| {
        let file = case.file().unwrap_or_default();
        let lines = file.split(|&byte| byte == b'\n');
        lines.filter(|line| line.starts_with(b"IE|")).count() >= 2
    };
    let smaller = shrink(&case, &|cases| cases.iter().map(has_antigens).collect());
    let file = String::from_utf8(smaller.file().expect("a file")).unwrap();
    let types: Vec<&str> = file.lines().map(|line| &line[..2]).collect();
    assert_eq!(types, ["IV", "IH", "IP", "II", "IE", "IE", "IF"]);
    assert!(smaller.chart[1..]
        .iter()
        .all(|&byte| byte == b' ' || byte < 6));
    assert_eq!(smaller.room + whole, case.room + file.len());
}
