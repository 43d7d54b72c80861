//! The check of document 01 as document 02's requests have changed it, so far
//! CR 1, written from their texts alone and with nothing shared with the product:
//! what both say of a case, both read in the documents.

pub mod book;
mod code;
pub mod date;
mod findings;
mod forms;
pub mod ledger;
mod rules;
pub mod shape;
mod tables;
mod words;

use book::Book;
pub use findings::Finding;
use ledger::Lent;
use rules::{Judge, Judged};
use shape::{Fault, Records};

pub const ACCEPTED: u32 = 0;
pub const DATE: u32 = 1;
pub const LONG: u32 = 2;
pub const BOOK: u32 = 3;
pub const LEDGER: u32 = 4;
pub const SHAPE: u32 = 5;
pub const FINDINGS: u32 = 6;
pub const FULL: u32 = 7;

/// The longest file that is not LONG.
pub const FILE_MOST: usize = 5_000_000;

/// A finding's bytes: the rule, four of line with the lowest first, the field.
pub const FINDING_WIDTH: usize = 6;

/// The eight numbers. Those not named for an answer are 0.
#[derive(Clone, Copy, Debug, Default, PartialEq, Eq)]
pub struct Answer {
    pub answer: u32,
    pub line: u32,
    pub cause: u32,
    pub findings: u32,
    pub added: u32,
    pub changed: u32,
    pub deleted: u32,
    pub not_immunized: u32,
}

impl Answer {
    fn of(answer: u32) -> Answer {
        Answer {
            answer,
            ..Answer::default()
        }
    }

    fn of_fault(fault: Fault) -> Answer {
        Answer {
            line: fault.line,
            cause: fault.cause,
            ..Answer::of(SHAPE)
        }
    }

    fn of_findings(findings: &[Finding]) -> Answer {
        Answer {
            findings: findings.len() as u32,
            ..Answer::of(FINDINGS)
        }
    }

    fn of_blocks(judged: &Judged) -> Answer {
        Answer {
            added: judged.added,
            changed: judged.changed,
            deleted: judged.deleted,
            not_immunized: judged.not_immunized,
            ..Answer::of(ACCEPTED)
        }
    }

    /// The eight numbers in their order.
    pub fn numbers(&self) -> [u32; 8] {
        [
            self.answer,
            self.line,
            self.cause,
            self.findings,
            self.added,
            self.changed,
            self.deleted,
            self.not_immunized,
        ]
    }
}

/// The lowest answer that applies. The ledger alters only at ACCEPTED, the
/// findings area only at FINDINGS.
pub fn check(
    today: u32,
    file: &[u8],
    book: &[u8],
    ledger: &mut [u8],
    findings: &mut [u8],
) -> Answer {
    let (judged, lent) = match judge(today, file, book, ledger) {
        Ok(said) => said,
        Err(refusal) => return refusal,
    };
    if !judged.findings.is_empty() {
        write_findings(&judged.findings, findings);
        return Answer::of_findings(&judged.findings);
    }
    let live = lent.live.len();
    if live + judged.added as usize - judged.deleted as usize > lent.slots {
        return Answer::of(FULL);
    }
    if !judged.edits.is_empty() {
        ledger::apply(ledger, live, &judged.edits);
    }
    Answer::of_blocks(&judged)
}

/// Every finding of a case, in the order of the list; none where an answer
/// below FINDINGS is given.
pub fn all_findings(today: u32, file: &[u8], book: &[u8], ledger: &[u8]) -> Vec<Finding> {
    judge(today, file, book, ledger).map_or_else(|_| Vec::new(), |(judged, _)| judged.findings)
}

/// The answers 1 to 5, or what the rules say, and the ledger as lent.
fn judge(today: u32, file: &[u8], book: &[u8], ledger: &[u8]) -> Result<(Judged, Lent), Answer> {
    if !date::is_date(today) {
        return Err(Answer::of(DATE));
    }
    if file.len() > FILE_MOST {
        return Err(Answer::of(LONG));
    }
    let book = Book::read(book).ok_or(Answer::of(BOOK))?;
    let lent = Lent::read(ledger).ok_or(Answer::of(LEDGER))?;
    let mut records = Records::of(file);
    let mut judge = Judge::new(today, &book);
    while let Some(record) = records.read_next().map_err(Answer::of_fault)? {
        judge.record(&record);
    }
    Ok((judge.finish(&lent), lent))
}

/// The longest run of whole findings from the start of the list that fits.
fn write_findings(list: &[Finding], area: &mut [u8]) {
    for (finding, place) in list.iter().zip(area.chunks_exact_mut(FINDING_WIDTH)) {
        place[0] = finding.rule;
        place[1..5].copy_from_slice(&finding.line.to_le_bytes());
        place[5] = finding.field;
    }
}
