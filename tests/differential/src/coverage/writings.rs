//! What a call of the writer meets: its answer, the faults of a chart, the length
//! of the lent area, the events that recur, the forms of fields, and the numbers of
//! records.

mod events;
mod faults;

use crate::case::writing::WriteCase;
use crate::check::shape::Kind;
use crate::check::{all_findings, ACCEPTED, FILE_MOST, FINDINGS};
use crate::write::chart::{self, Record};
use crate::write::{self, RECORD, ROOM, WRITTEN};
use events::{of_events, Events, EVENTS};
use faults::{NoForm, NoKind, Odd};
use std::collections::BTreeSet;
use std::fmt;

const KINDS: [Kind; 5] = [Kind::IP, Kind::II, Kind::IE, Kind::IN, Kind::IA];

/// The longest chart whose fields are looked at.
const MOST_FOR_FIELDS: usize = 100_000;

#[derive(Clone, Copy, PartialEq, Eq, PartialOrd, Ord)]
pub enum Row {
    Answer(u32),
    Prefix(NoForm),
    Batch(NoForm),
    Kind(NoKind),
    /// Cut just behind the byte of kind, or later.
    Cut(Kind, bool),
    Byte(Odd),
    /// A byte that no field may have, in a record of this type.
    ByteIn(Kind),
    Order(Option<Kind>, Option<Kind>),
    Room(Room),
    /// The digits of the last record's number.
    Digits(usize),
    Events(Events),
    Field(Kind, Form),
    Checked(Checked),
}

#[derive(Clone, Copy, Debug, PartialEq, Eq, PartialOrd, Ord)]
pub enum Room {
    None,
    OneShort,
    Exact,
    OneMore,
    MoreThanTheLongest,
    ExactOfTheLongest,
    FileTooLong,
}

#[derive(Clone, Copy, Debug, PartialEq, Eq, PartialOrd, Ord)]
pub enum Form {
    Blank,
    WholeWidth,
    BlanksBefore,
    BlanksBehind,
    BlanksAtBothEnds,
    BlanksInside,
}

#[derive(Clone, Copy, Debug, PartialEq, Eq, PartialOrd, Ord)]
pub enum Checked {
    Accepted,
    Findings,
    AcceptedAndRefusedAsGiven,
    RefusedForANumberOfSixDigits,
}

const ROOMS: [Room; 7] = [
    Room::None,
    Room::OneShort,
    Room::Exact,
    Room::OneMore,
    Room::MoreThanTheLongest,
    Room::ExactOfTheLongest,
    Room::FileTooLong,
];
const FORMS: [Form; 6] = [
    Form::Blank,
    Form::WholeWidth,
    Form::BlanksBefore,
    Form::BlanksBehind,
    Form::BlanksAtBothEnds,
    Form::BlanksInside,
];
const CHECKED: [Checked; 4] = [
    Checked::Accepted,
    Checked::Findings,
    Checked::AcceptedAndRefusedAsGiven,
    Checked::RefusedForANumberOfSixDigits,
];

pub fn possible() -> Vec<Row> {
    let mut rows = [WRITTEN, RECORD, ROOM].map(Row::Answer).to_vec();
    rows.extend(faults::possible());
    rows.extend(ROOMS.map(Row::Room));
    rows.extend((1..=6).map(Row::Digits));
    rows.extend(EVENTS.map(Row::Events));
    for kind in KINDS {
        rows.extend(FORMS.map(|form| Row::Field(kind, form)));
    }
    rows.extend(CHECKED.map(Row::Checked));
    rows
}

/// The rows that a case reaches, each once.
pub fn rows(case: &WriteCase) -> BTreeSet<Row> {
    let mut rows = BTreeSet::new();
    let (written, area) = case.outcome();
    rows.insert(Row::Answer(written.answer));
    match write::read(&case.prefix, &case.batch, &case.chart) {
        Err(fault) => rows.extend(faults::rows(case, fault)),
        Ok(records) => {
            rows.extend(of_room(case).map(Row::Room));
            if written.answer == WRITTEN {
                rows.insert(Row::Digits(records.len().to_string().len()));
                of_records(case, &records, &mut rows);
                of_check(case, &records, &area[..written.length as usize], &mut rows);
            }
        }
    }
    rows
}

fn of_room(case: &WriteCase) -> Option<Room> {
    let Some(file) = case.file() else {
        return (case.room > FILE_MOST).then_some(Room::FileTooLong);
    };
    let length = file.len();
    match case.room {
        0 => Some(Room::None),
        room if room == FILE_MOST && length == FILE_MOST => Some(Room::ExactOfTheLongest),
        room if room == length => Some(Room::Exact),
        room if room + 1 == length => Some(Room::OneShort),
        room if room == length + 1 => Some(Room::OneMore),
        room if room > FILE_MOST => Some(Room::MoreThanTheLongest),
        _ => None,
    }
}

fn of_records(case: &WriteCase, records: &[Record], rows: &mut BTreeSet<Row>) {
    if records.is_empty() {
        rows.insert(Row::Events(Events::NoRecord));
    }
    let padded = chart::padded(&case.chart);
    rows.extend(of_events(&padded).into_iter().map(Row::Events));
    if case.chart.len() > MOST_FOR_FIELDS {
        return;
    }
    for (kind, fields) in padded {
        let forms = fields.into_iter().flat_map(forms);
        rows.extend(forms.map(|form| Row::Field(kind, form)));
    }
}

fn forms(field: &[u8]) -> Vec<Form> {
    let text = chart::as_written(field);
    let (is_before, is_behind) = (field[0] == b' ', field[field.len() - 1] == b' ');
    let ends = match (is_before, is_behind) {
        _ if text.is_empty() => Form::Blank,
        (true, true) => Form::BlanksAtBothEnds,
        (true, false) => Form::BlanksBefore,
        (false, true) => Form::BlanksBehind,
        (false, false) => Form::WholeWidth,
    };
    let inside = text.contains(&b' ').then_some(Form::BlanksInside);
    [ends].into_iter().chain(inside).collect()
}

fn of_check(case: &WriteCase, records: &[Record], file: &[u8], rows: &mut BTreeSet<Row>) {
    let answer = case.check_of(file).outcome().answer;
    if answer.answer == FINDINGS {
        rows.insert(Row::Checked(Checked::Findings));
        let findings = all_findings(case.today, file, &case.book, &case.ledger);
        if records.len() > 99_999 && findings.iter().all(|it| (it.field, it.rule) == (2, 2)) {
            rows.insert(Row::Checked(Checked::RefusedForANumberOfSixDigits));
        }
    }
    if answer.answer != ACCEPTED {
        return;
    }
    rows.insert(Row::Checked(Checked::Accepted));
    let given = write::file_in_order(&case.prefix, &case.batch, records.iter(), FILE_MOST);
    let refused = given.map(|given| case.check_of(&given).outcome().answer.answer);
    if refused == Some(FINDINGS) {
        rows.insert(Row::Checked(Checked::AcceptedAndRefusedAsGiven));
    }
}

impl fmt::Display for Row {
    fn fmt(&self, text: &mut fmt::Formatter) -> fmt::Result {
        let named = |kind: &Option<Kind>, none: &str| {
            kind.map_or(none.to_string(), |kind| format!("{kind:?}"))
        };
        match self {
            Row::Answer(answer) => write!(text, "answer {answer}"),
            Row::Prefix(why) => write!(text, "prefix not of its form: {}", words(why)),
            Row::Batch(why) => write!(text, "batch number not of its form: {}", words(why)),
            Row::Kind(byte) => write!(text, "unknown kind: {}", words(byte)),
            Row::Cut(kind, true) => write!(text, "{kind:?} cut behind its kind"),
            Row::Cut(kind, false) => write!(text, "{kind:?} cut later"),
            Row::Byte(odd) => write!(text, "byte {}", words(odd)),
            Row::ByteIn(kind) => write!(text, "{kind:?} with such a byte"),
            Row::Order(before, next) => {
                let (before, next) = (named(before, "the start"), named(next, "the end"));
                write!(text, "{next} behind {before}")
            }
            Row::Room(room) => write!(text, "room {}", words(room)),
            Row::Digits(digits) => write!(text, "numbers of {digits} digits"),
            Row::Events(events) => write!(text, "events: {}", words(events)),
            Row::Field(kind, form) => write!(text, "{kind:?} field: {}", words(form)),
            Row::Checked(checked) => write!(text, "checked: {}", words(checked)),
        }
    }
}

/// A name in small words: LotsBroughtTogether is lots brought together.
fn words(name: &impl fmt::Debug) -> String {
    let mut words = String::new();
    for letter in format!("{name:?}").chars() {
        if letter.is_ascii_uppercase() && !words.is_empty() {
            words.push(' ');
        }
        words.push(letter.to_ascii_lowercase());
    }
    words
}
