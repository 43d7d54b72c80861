//! The code book: one byte of kind, then a body whose length the kind fixes,
//! entry after entry, ascending strictly by kind and then code bytes.

use super::code::{short, Code, ShortCode};
use super::date;
use std::collections::HashMap;
use std::hash::{BuildHasherDefault, Hash, Hasher};
use std::ops::Range;

pub const BOOK_MOST: usize = 262_144;

const VACCINE: u8 = 1;
const ANTIGEN: u8 = 2;
const REASON: u8 = 3;
const MANUFACTURER: u8 = 4;
const DOSAGE_TYPE: u8 = 5;
const REASON_NOT_IMMUNIZED: u8 = 6;
const VACCINE_WITH_REASON: u8 = 7;
const VACCINE_WITH_ANTIGEN: u8 = 8;

/// The widths of a kind's codes; none for a byte that is no kind.
fn code_widths(kind: u8) -> Option<&'static [usize]> {
    match kind {
        VACCINE | ANTIGEN => Some(&[20]),
        REASON => Some(&[2]),
        MANUFACTURER | REASON_NOT_IMMUNIZED => Some(&[3]),
        DOSAGE_TYPE => Some(&[4]),
        VACCINE_WITH_REASON => Some(&[20, 2]),
        VACCINE_WITH_ANTIGEN => Some(&[20, 20]),
        _ => None,
    }
}

/// The whole length of an entry of this kind, its kind byte too.
pub fn entry_width(kind: u8) -> Option<usize> {
    let codes: usize = code_widths(kind)?.iter().sum();
    Some(1 + codes + start_width(kind) + 8)
}

fn start_width(kind: u8) -> usize {
    if kind == VACCINE {
        8
    } else {
        0
    }
}

/// The days on which a code is in force. Without a start it is 0.
#[derive(Clone, Copy)]
pub struct Days {
    start: u32,
    end: u32,
}

impl Days {
    /// Whether it is in force on `day`, with an end on or after `ends_from`.
    pub fn in_force(self, day: u32, ends_from: u32) -> bool {
        self.start <= day && day <= self.end && ends_from <= self.end
    }
}

/// A code that is in the book: its number among those of its kind, and its days.
#[derive(Clone, Copy)]
pub struct Known {
    pub number: u32,
    pub days: Days,
}

/// The codes of a kind.
pub struct Table<C> {
    codes: HashMap<C, Known, BuildHasherDefault<Folded>>,
}

impl<C> Default for Table<C> {
    fn default() -> Table<C> {
        Table {
            codes: HashMap::default(),
        }
    }
}

impl<C: Eq + Hash> Table<C> {
    fn push(&mut self, code: C, days: Days) {
        let number = self.codes.len() as u32;
        self.codes.insert(code, Known { number, days });
    }

    #[inline]
    pub fn find(&self, code: &C) -> Option<Known> {
        self.codes.get(code).copied()
    }
}

/// A hash of few instructions, for numbers that come from the book.
#[derive(Default)]
pub struct Folded(u64);

impl Hasher for Folded {
    fn write_u64(&mut self, number: u64) {
        let product = u128::from(self.0 ^ number) * 0x9E37_79B9_7F4A_7C15;
        self.0 = product as u64 ^ (product >> 64) as u64;
    }

    fn write_u32(&mut self, number: u32) {
        self.write_u64(u64::from(number));
    }

    fn write(&mut self, bytes: &[u8]) {
        bytes.iter().for_each(|&byte| self.write_u64(byte.into()));
    }

    fn finish(&self) -> u64 {
        self.0
    }
}

/// Pairs of a vaccine with another code, by the vaccine's number; those whose two
/// codes are known, for no rule asks after others.
#[derive(Default)]
pub struct Pairs {
    /// Where a vaccine's pairs stand in the table of the other's numbers.
    of_vaccine: Vec<Range<usize>>,
    others: Vec<u32>,
    days: Vec<Days>,
}

impl Pairs {
    fn push(&mut self, vaccine: u32, other: u32, days: Days) {
        let vaccine = vaccine as usize;
        let place = self.others.len();
        if self.of_vaccine.len() <= vaccine {
            self.of_vaccine.resize(vaccine, 0..0);
            self.of_vaccine.push(place..place);
        }
        self.of_vaccine[vaccine].end = place + 1;
        self.others.push(other);
        self.days.push(days);
    }

    pub fn find(&self, vaccine: u32, other: u32) -> Option<Days> {
        let range = self.of_vaccine.get(vaccine as usize)?;
        let place = self.others[range.clone()].binary_search(&other).ok()?;
        Some(self.days[range.start + place])
    }
}

#[derive(Default)]
pub struct Book {
    pub vaccines: Table<Code>,
    pub antigens: Table<Code>,
    /// By the number of their two digits.
    pub reasons: Table<u32>,
    pub manufacturers: Table<ShortCode>,
    pub dosage_types: Table<ShortCode>,
    pub reasons_not_immunized: Table<ShortCode>,
    pub vaccine_with_reason: Pairs,
    pub vaccine_with_antigen: Pairs,
}

impl Book {
    /// The book that the bytes are, unless malformed.
    pub fn read(bytes: &[u8]) -> Option<Book> {
        if bytes.len() > BOOK_MOST {
            return None;
        }
        let mut book = Book::default();
        let (mut before, mut rest): (&[u8], &[u8]) = (&[], bytes);
        while !rest.is_empty() {
            let (entry, next) = rest.split_at_checked(entry_width(rest[0])?)?;
            let (key, dates) = entry.split_at(entry.len() - 8 - start_width(entry[0]));
            if key <= before {
                return None;
            }
            book.add(key[0], &key[1..], read_days(dates)?)?;
            (before, rest) = (key, next);
        }
        Some(book)
    }

    /// An entry of this kind; none if a code has not its form.
    fn add(&mut self, kind: u8, codes: &[u8], days: Days) -> Option<()> {
        match kind {
            VACCINE => self.vaccines.push(long_code(codes)?, days),
            ANTIGEN => self.antigens.push(long_code(codes)?, days),
            REASON => self.reasons.push(two_digits(codes)?, days),
            MANUFACTURER => self.manufacturers.push(short_code(codes)?, days),
            DOSAGE_TYPE => self.dosage_types.push(short_code(codes)?, days),
            REASON_NOT_IMMUNIZED => self.reasons_not_immunized.push(short_code(codes)?, days),
            VACCINE_WITH_REASON => {
                let vaccine = self.vaccines.find(&long_code(&codes[..20])?);
                let reason = self.reasons.find(&two_digits(&codes[20..])?);
                if let (Some(vaccine), Some(reason)) = (vaccine, reason) {
                    self.vaccine_with_reason
                        .push(vaccine.number, reason.number, days);
                }
            }
            _ => {
                let vaccine = self.vaccines.find(&long_code(&codes[..20])?);
                let antigen = self.antigens.find(&long_code(&codes[20..])?);
                if let (Some(vaccine), Some(antigen)) = (vaccine, antigen) {
                    self.vaccine_with_antigen
                        .push(vaccine.number, antigen.number, days);
                }
            }
        }
        Some(())
    }
}

fn long_code(bytes: &[u8]) -> Option<Code> {
    Code::of_padded(bytes.try_into().ok()?)
}

/// At least one byte in 33..126, then spaces.
fn short_code(bytes: &[u8]) -> Option<ShortCode> {
    let code = bytes
        .iter()
        .take_while(|byte| (33..=126).contains(*byte))
        .count();
    let is_padded = code > 0 && bytes[code..].iter().all(|&byte| byte == b' ');
    is_padded.then(|| short(bytes))
}

fn two_digits(bytes: &[u8]) -> Option<u32> {
    let is_number = bytes.iter().all(u8::is_ascii_digit);
    is_number.then(|| 10 * u32::from(bytes[0] - b'0') + u32::from(bytes[1] - b'0'))
}

/// An end, with a start before it where there are sixteen bytes.
fn read_days(dates: &[u8]) -> Option<Days> {
    let (start, end) = dates.split_at(dates.len() - 8);
    Some(Days {
        start: match start {
            [] => 0,
            start => date::of_text(start)?,
        },
        end: date::end_of(end)?,
    })
}
