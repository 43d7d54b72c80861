//! One submission from files, and what document 01's program prints of it.

use crate::case::{Case, Outcome};
use crate::check::FINDING_WIDTH;
use std::fs;
use std::io;

/// The findings that document 01's program has room for.
const FINDINGS_MOST: usize = 1_000;

/// The case of `TODAY FILE BOOK LEDGER`. A today of another form than eight
/// digits is no date.
pub fn case(today: &str, file: &str, book: &str, ledger: &str) -> io::Result<Case> {
    let is_eight_digits = today.len() == 8 && today.bytes().all(|byte| byte.is_ascii_digit());
    let today = today.parse().ok().filter(|_| is_eight_digits);
    Ok(Case {
        today: today.unwrap_or(0),
        file: read(file)?,
        book: read(book)?,
        ledger: read(ledger)?,
        room: FINDINGS_MOST * FINDING_WIDTH,
    })
}

fn read(path: &str) -> io::Result<Vec<u8>> {
    fs::read(path).map_err(|error| io::Error::new(error.kind(), format!("{path}: {error}")))
}

/// The eight numbers, then line, field and rule of each finding kept.
pub fn printed(outcome: &Outcome) -> String {
    let numbers = outcome.answer.numbers().map(|number| number.to_string());
    let mut text = numbers.join(" ") + "\n";
    let kept = outcome.area.chunks_exact(FINDING_WIDTH);
    for finding in kept.take(outcome.answer.findings as usize) {
        let line = u32::from_le_bytes([finding[1], finding[2], finding[3], finding[4]]);
        text += &format!("{line} {} {}\n", finding[5], finding[0]);
    }
    text
}
