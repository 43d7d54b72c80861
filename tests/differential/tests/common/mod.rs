//! Book E, File E, and what is asked of them.
#![allow(dead_code)]

pub mod charts;
pub mod plain;
pub mod slips;

use differential::case::{Case, Outcome};
use differential::check::{all_findings, Answer, ACCEPTED, SHAPE};

pub const TODAY: u32 = 20220930;

pub const FILE_E: &str = "\
IV|7.2|
IH|10|000001|
IP|1|123456789|||||SMITH|JOHN||||||||||||||||20150301|||
II|2|123456789|A||20220901||TESTV|LA|IM|50|0.5|ML|GSK|L1||||||||
IE|3|123456789|TESTA|1|
II|4|123456789|A||20220901||TESTV|LA|IM|50|0.5|ML|GSK|L2||||||||
IE|5|123456789|TESTA|1|
IF|8|0|
";

pub fn book_e() -> Vec<u8> {
    let text = [
        format!("\x01{:20}2000010199999999", "TESTV"),
        format!("\x02{:20}99999999", "TESTA"),
        "\x035099999999".to_string(),
        "\x04GSK99999999".to_string(),
        format!("\x05{:4}99999999", "ML"),
        format!("\x07{:20}5099999999", "TESTV"),
        format!("\x08{:20}{:20}99999999", "TESTV", "TESTA"),
    ];
    text.concat().into_bytes()
}

pub fn case(file: &str, ledger: &[u8]) -> Case {
    Case {
        today: TODAY,
        file: file.into(),
        book: book_e(),
        ledger: ledger.to_vec(),
        room: 600,
    }
}

/// File E with other texts on some of its lines.
pub fn file_e(changes: &[(usize, &str, &str)]) -> String {
    let mut lines: Vec<String> = FILE_E.lines().map(str::to_string).collect();
    for &(line, old, new) in changes {
        assert!(lines[line - 1].contains(old), "line {line} has no {old}");
        lines[line - 1] = lines[line - 1].replacen(old, new, 1);
    }
    lines.join("\n") + "\n"
}

pub fn free(slots: usize) -> Vec<u8> {
    vec![0; 38 * slots]
}

pub fn live(uli: &str, date: &str, vaccine: &str) -> Vec<u8> {
    format!("\x01{uli}{date}{vaccine:20}").into_bytes()
}

/// Line, field and rule of each finding.
pub fn findings(file: &str, ledger: &[u8]) -> Vec<(u32, u8, u8)> {
    findings_by(&book_e(), file, ledger)
}

/// The same with another book.
pub fn findings_by(book: &[u8], file: &str, ledger: &[u8]) -> Vec<(u32, u8, u8)> {
    let list = all_findings(TODAY, file.as_bytes(), book, ledger);
    list.iter()
        .map(|finding| (finding.line, finding.field, finding.rule))
        .collect()
}

pub fn outcome(file: &str, ledger: &[u8]) -> Outcome {
    case(file, ledger).outcome()
}

pub fn shape(line: u32, cause: u32) -> Answer {
    Answer {
        answer: SHAPE,
        line,
        cause,
        ..Answer::default()
    }
}

pub fn accepted(added: u32, changed: u32, deleted: u32) -> Answer {
    Answer {
        answer: ACCEPTED,
        added,
        changed,
        deleted,
        ..Answer::default()
    }
}
