//! What may go from a case of the writer: chart records, the texts of fields, and
//! what the file is checked by.

use super::{places, runs};
use crate::case::writing::WriteCase;
use crate::write::chart;
use std::ops::Range;

/// The longest chart whose fields are blanked one by one.
const MOST_FOR_FIELDS: usize = 40_000;

pub enum Cut {
    Records(Range<usize>),
    Field(Range<usize>),
    Ledger,
    Book,
}

impl Cut {
    /// The case without these bytes: with the room that it had, and with room that
    /// shrinks as the file does.
    pub fn applied(&self, case: &WriteCase) -> Vec<WriteCase> {
        let mut smaller = case.clone();
        match self {
            Cut::Records(place) => drop(smaller.chart.drain(place.clone())),
            Cut::Field(place) => smaller.chart[place.clone()].fill(b' '),
            Cut::Ledger => smaller.ledger.clear(),
            Cut::Book => smaller.book.clear(),
        }
        let with_room = room_moved(case, &smaller).map(|room| WriteCase {
            room,
            ..smaller.clone()
        });
        with_room.into_iter().chain([smaller]).collect()
    }
}

fn room_moved(case: &WriteCase, smaller: &WriteCase) -> Option<usize> {
    let (before, after) = (case.file()?.len(), smaller.file()?.len());
    (case.room + after).checked_sub(before)
}

pub fn cuts(case: &WriteCase) -> Vec<Cut> {
    let mut cuts = Vec::new();
    if !case.ledger.is_empty() {
        cuts.push(Cut::Ledger);
    }
    if !case.book.is_empty() {
        cuts.push(Cut::Book);
    }
    let records = records(&case.chart);
    cuts.extend(
        runs(&places(records.iter().map(|it| it.len())))
            .into_iter()
            .map(Cut::Records),
    );
    if case.chart.len() <= MOST_FOR_FIELDS {
        let fields = records
            .into_iter()
            .flat_map(|place| fields(&case.chart, place));
        let is_text =
            |place: &Range<usize>| case.chart[place.clone()].iter().any(|&byte| byte != b' ');
        cuts.extend(fields.filter(is_text).map(Cut::Field));
    }
    cuts
}

/// The records of a chart; what cannot be read is one part.
fn records(bytes: &[u8]) -> Vec<Range<usize>> {
    let mut records = Vec::new();
    let mut at = 0;
    while let Some(&byte) = bytes.get(at) {
        let length = chart::kind(byte).map_or(bytes.len(), |kind| 1 + chart::length(kind));
        let end = (at + length).min(bytes.len());
        records.push(at..end);
        at = end;
    }
    records
}

/// The fields of a whole record.
fn fields(bytes: &[u8], record: Range<usize>) -> Vec<Range<usize>> {
    let mut fields = Vec::new();
    let mut at = record.start + 1;
    for &width in chart::kind(bytes[record.start]).map_or(&[][..], chart::widths) {
        if at + width <= record.end {
            fields.push(at..at + width);
        }
        at += width;
    }
    fields
}
