//! How the codes and pairs that a file uses end: beside the record's day, beside
//! today, and by what II 5 says (document 02, CR 1).

use crate::case::Case;
use crate::check::book::entry_width;
use crate::check::date;
use crate::check::shape::Kind;
use crate::generate::calendar;
use crate::generate::world::{padded, widths};
use std::collections::{BTreeSet, HashMap};
use std::fmt;

/// A field with a code of the book, or the pair that is judged there.
#[derive(Clone, Copy, PartialEq, Eq, PartialOrd, Ord)]
pub struct Place {
    kind: Kind,
    field: u8,
    /// The kind of its entries.
    entry: u8,
}

const fn place(kind: Kind, field: u8, entry: u8) -> Place {
    Place { kind, field, entry }
}

const OF_AN_II: [Place; 7] = [
    place(Kind::II, 8, 1),
    place(Kind::II, 11, 3),
    place(Kind::II, 11, 7),
    place(Kind::II, 13, 5),
    place(Kind::II, 14, 4),
    place(Kind::IE, 4, 2),
    place(Kind::IE, 4, 8),
];
const OF_AN_IN: [Place; 2] = [place(Kind::IN, 6, 6), place(Kind::IA, 4, 2)];

/// What II 5 is, or that the record has none.
#[derive(Clone, Copy, PartialEq, Eq, PartialOrd, Ord)]
pub enum Indicator {
    H,
    Empty,
    Unsound,
    None,
}

const OF_II_5: [Indicator; 3] = [Indicator::H, Indicator::Empty, Indicator::Unsound];

/// When a code or pair ends. All but the first are in force on the record's day.
#[derive(Clone, Copy, PartialEq, Eq, PartialOrd, Ord)]
pub enum End {
    BeforeTheDay,
    Since,
    Yesterday,
    Today,
    Tomorrow,
}

pub const ENDS: [End; 5] = [
    End::BeforeTheDay,
    End::Since,
    End::Yesterday,
    End::Today,
    End::Tomorrow,
];

/// What is counted of a case, each at most once. Ended is: in force on the
/// record's day, and the end before today.
#[derive(Clone, Copy, PartialEq, Eq, PartialOrd, Ord)]
pub enum Row {
    Ends(Place, Indicator, End),
    /// In an II of this type, or its IE.
    EndedOfType(char, Indicator),
    /// In an IE, where the II before its own has another II 5.
    EndedAfterAnother(Indicator),
    /// In an IN or IA, with an II before it that is not H.
    EndedAfterAnII,
    /// An end before today, in an II without a sound date or its IE.
    EndedWithoutDate(Indicator),
    /// A vaccine with its days after the II's and before today.
    InForceSince(Indicator),
    /// In a file that is accepted.
    EndedAccepted(Indicator),
}

/// The places, with each indicator that they may have.
pub fn places() -> Vec<(Place, Indicator)> {
    let of_an_ii = OF_AN_II
        .iter()
        .flat_map(|&place| OF_II_5.map(|indicator| (place, indicator)));
    let of_an_in = OF_AN_IN.iter().map(|&place| (place, Indicator::None));
    of_an_ii.chain(of_an_in).collect()
}

/// The rows that are not by place.
pub fn others() -> Vec<Row> {
    let mut rows = Vec::new();
    for submission in ['A', 'C', 'D'] {
        rows.extend(OF_II_5.map(|indicator| Row::EndedOfType(submission, indicator)));
    }
    rows.extend(OF_II_5.map(Row::EndedAfterAnother));
    rows.push(Row::EndedAfterAnII);
    rows.extend(OF_II_5.map(Row::EndedWithoutDate));
    rows.extend([Indicator::H, Indicator::Empty].map(Row::InForceSince));
    rows.extend([Indicator::H, Indicator::None].map(Row::EndedAccepted));
    rows
}

pub fn possible() -> Vec<Row> {
    let by_place = places()
        .into_iter()
        .flat_map(|(place, indicator)| ENDS.map(|end| Row::Ends(place, indicator, end)));
    by_place.chain(others()).collect()
}

/// The rows of a case of good shape with a good book.
pub fn rows(case: &Case, is_accepted: bool) -> BTreeSet<Row> {
    let mut walk = Walk {
        today: case.today,
        is_accepted,
        book: entries(&case.book),
        head: Head::default(),
        rows: BTreeSet::new(),
    };
    for line in case.file.split(|&byte| byte == b'\n') {
        let fields: Vec<&[u8]> = line.split(|&byte| byte == b'|').collect();
        walk.line(&fields);
    }
    walk.rows
}

/// The start and the end of each entry, by its kind and code bytes.
fn entries(book: &[u8]) -> HashMap<&[u8], (u32, u32)> {
    let mut entries = HashMap::new();
    let mut rest = book;
    while let Some(width) = rest.first().and_then(|&kind| entry_width(kind)) {
        let (entry, next) = rest.split_at(width);
        let key = 1 + widths(entry[0]).iter().sum::<usize>();
        let end = date::end_of(&entry[width - 8..]).unwrap_or(0);
        let start = date::of_text(&entry[key..width - 8]).unwrap_or(0);
        entries.insert(&entry[..key], (start, end));
        rest = next;
    }
    entries
}

/// The II or IN above.
struct Head<'a> {
    indicator: Indicator,
    /// The indicator of the II before it, under any IP.
    before: Indicator,
    submission: char,
    day: Option<u32>,
    vaccine: &'a [u8],
}

impl Default for Head<'_> {
    fn default() -> Self {
        Head {
            indicator: Indicator::None,
            before: Indicator::None,
            submission: ' ',
            day: None,
            vaccine: &[],
        }
    }
}

struct Walk<'a> {
    today: u32,
    is_accepted: bool,
    book: HashMap<&'a [u8], (u32, u32)>,
    head: Head<'a>,
    rows: BTreeSet<Row>,
}

impl<'a> Walk<'a> {
    fn line(&mut self, fields: &[&'a [u8]]) {
        match fields[0] {
            b"II" => self.head = self.immunization(fields),
            b"IN" => {
                self.head = Head {
                    before: self.last_indicator(),
                    day: date::of_text(fields[4]),
                    ..Head::default()
                }
            }
            _ => (),
        }
        for place in OF_AN_II.iter().chain(&OF_AN_IN) {
            if fields[0] == format!("{:?}", place.kind).as_bytes() {
                let days = self.find(*place, fields[place.field as usize - 1]);
                days.into_iter()
                    .for_each(|(start, end)| self.note(*place, start, end));
            }
        }
    }

    fn immunization(&self, fields: &[&'a [u8]]) -> Head<'a> {
        Head {
            indicator: match fields[4] {
                b"H" => Indicator::H,
                b"" => Indicator::Empty,
                _ => Indicator::Unsound,
            },
            before: self.last_indicator(),
            submission: match fields[3] {
                [submission] => char::from(*submission),
                _ => ' ',
            },
            day: date::of_text(fields[5]),
            vaccine: fields[7],
        }
    }

    /// The indicator of the last II.
    fn last_indicator(&self) -> Indicator {
        match self.head.indicator {
            Indicator::None => self.head.before,
            indicator => indicator,
        }
    }

    /// The days of a code, or of a pair whose codes are both known.
    fn find(&self, place: Place, text: &[u8]) -> Option<(u32, u32)> {
        let code = code_of(place, text)?;
        let vaccine = padded(self.head.vaccine, 20);
        let known = |kind: u8, code: &[u8]| self.book.get(&[&[kind], code].concat()[..]).copied();
        if place.entry < 7 {
            return known(place.entry, &code);
        }
        let other = if place.entry == 7 { 3 } else { 2 };
        known(1, &vaccine).and(known(other, &code))?;
        known(place.entry, &[vaccine, code].concat())
    }

    fn note(&mut self, place: Place, start: u32, end: u32) {
        let indicator = self.head.indicator;
        let Some(day) = self.head.day else {
            if end < self.today {
                self.rows.insert(Row::EndedWithoutDate(indicator));
            }
            return;
        };
        if start > day {
            if start <= end && end < self.today {
                self.rows.insert(Row::InForceSince(indicator));
            }
            return;
        }
        let Some(end) = self.end(day, end) else {
            return;
        };
        self.rows.insert(Row::Ends(place, indicator, end));
        if matches!(end, End::Since | End::Yesterday) {
            self.note_ended(place);
        }
    }

    fn end(&self, day: u32, end: u32) -> Option<End> {
        match end {
            _ if end < day => Some(End::BeforeTheDay),
            _ if end == self.today => Some(End::Today),
            _ if end == calendar::day_before(self.today) => Some(End::Yesterday),
            _ if end == calendar::day_after(self.today) => Some(End::Tomorrow),
            _ if end < self.today => Some(End::Since),
            _ => None,
        }
    }

    fn note_ended(&mut self, place: Place) {
        let Head {
            indicator,
            before,
            submission,
            ..
        } = self.head;
        if indicator != Indicator::None {
            self.rows.insert(Row::EndedOfType(submission, indicator));
        } else if matches!(before, Indicator::Empty | Indicator::Unsound) {
            self.rows.insert(Row::EndedAfterAnII);
        }
        if place.kind == Kind::IE && before != Indicator::None && before != indicator {
            self.rows.insert(Row::EndedAfterAnother(indicator));
        }
        if self.is_accepted {
            self.rows.insert(Row::EndedAccepted(indicator));
        }
    }
}

/// The code that a text is at a place, as the book has it; none if it is unsound.
fn code_of(place: Place, text: &[u8]) -> Option<Vec<u8>> {
    let width = *widths(place.entry).last()?;
    let is_code = match place.entry {
        3 | 7 => return reason(text),
        4..=6 => text.iter().all(u8::is_ascii_alphabetic),
        _ => text.iter().all(|byte| (33..=126).contains(byte)),
    };
    (is_code && (1..=width).contains(&text.len())).then(|| padded(text, width))
}

fn reason(text: &[u8]) -> Option<Vec<u8>> {
    let digits = match *text {
        [digit] | [b' ', digit] => [b'0', digit],
        [one, other] => [one, other],
        _ => return None,
    };
    digits
        .iter()
        .all(u8::is_ascii_digit)
        .then(|| digits.to_vec())
}

impl fmt::Display for Place {
    fn fmt(&self, out: &mut fmt::Formatter) -> fmt::Result {
        let what = if self.entry < 7 { "code" } else { "pair" };
        write!(out, "{:?} {} {what}", self.kind, self.field)
    }
}

impl fmt::Display for Indicator {
    fn fmt(&self, out: &mut fmt::Formatter) -> fmt::Result {
        out.write_str(match self {
            Indicator::H => "H",
            Indicator::Empty => "no H",
            Indicator::Unsound => "II 5 unsound",
            Indicator::None => "no II 5",
        })
    }
}

impl fmt::Display for End {
    fn fmt(&self, out: &mut fmt::Formatter) -> fmt::Result {
        out.write_str(match self {
            End::BeforeTheDay => "before the day",
            End::Since => "since",
            End::Yesterday => "yesterday",
            End::Today => "today",
            End::Tomorrow => "tomorrow",
        })
    }
}

impl fmt::Display for Row {
    fn fmt(&self, out: &mut fmt::Formatter) -> fmt::Result {
        match self {
            Row::Ends(place, indicator, end) => write!(out, "{place} ends {end}, {indicator}"),
            Row::EndedOfType(submission, indicator) => {
                write!(out, "ended, type {submission}, {indicator}")
            }
            Row::EndedAfterAnother(indicator) => {
                write!(out, "ended, IE after an II with another II 5, {indicator}")
            }
            Row::EndedAfterAnII => write!(out, "ended, IN or IA after an II that is not H"),
            Row::EndedWithoutDate(indicator) => write!(out, "ended, no sound date, {indicator}"),
            Row::InForceSince(indicator) => write!(out, "started and ended since, {indicator}"),
            Row::EndedAccepted(indicator) => write!(out, "ended and accepted, {indicator}"),
        }
    }
}
