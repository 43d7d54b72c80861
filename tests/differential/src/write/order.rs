//! The order of the file: under each patient record the lots of one event stand
//! behind its first immunization, and all else as it was given.

use super::chart::Record;
use crate::check::shape::Kind;
use std::collections::HashMap;
use std::hash::{BuildHasherDefault, Hasher};
use std::ops::Range;

/// The fields that are an event: ULI, submission type, date and vaccine, by their
/// places in an II's chart record.
const EVENT: [Range<usize>; 4] = [0..9, 9..10, 11..19, 20..35];

/// The bytes of an event's fields, then four that number the patient record.
type Key = [u8; 40];
const PATIENT: Range<usize> = 33..37;

/// So many immunizations of a patient are few.
const FEW: usize = 16;

/// The records of a chart as runs in the order of the file.
pub fn runs(records: &[Record]) -> Vec<Range<usize>> {
    let mut order = Order::default();
    let mut start = 0;
    while start < records.len() {
        let end = end_of(records, start + 1, Kind::IP);
        order.patient(records, start..end);
        start = end;
    }
    order.runs
}

/// Where the next record of this type stands, or the end.
fn end_of(records: &[Record], from: usize, kind: Kind) -> usize {
    let found = records[from..]
        .iter()
        .position(|record| record.kind == kind);
    found.map_or(records.len(), |place| from + place)
}

#[derive(Default)]
struct Order {
    runs: Vec<Range<usize>>,
    patients: u32,
    /// The immunization of an event that was met last, by its number under its
    /// patient record; of a patient with few immunizations, in a list.
    last: HashMap<Key, usize, BuildHasherDefault<Mixed>>,
    few: Vec<(Key, usize)>,
    immunizations: Vec<Immunization>,
}

/// An II with its IE records.
struct Immunization {
    run: Range<usize>,
    is_first: bool,
    /// The next one of its event.
    next: Option<usize>,
}

impl Order {
    /// A patient record with what belongs to it.
    fn patient(&mut self, records: &[Record], place: Range<usize>) {
        self.patients += 1;
        let end = self.read(records, place.clone());
        if self.immunizations.len() < 2 {
            self.runs.push(place);
            return;
        }
        self.chain(records);
        self.runs.push(place.start..place.start + 1);
        for first in self.immunizations.iter().filter(|it| it.is_first) {
            self.runs.push(first.run.clone());
            let mut next = first.next;
            while let Some(number) = next {
                self.runs.push(self.immunizations[number].run.clone());
                next = self.immunizations[number].next;
            }
        }
        self.runs.push(end..place.end);
    }

    /// The patient's immunizations. Gives back where they end.
    fn read(&mut self, records: &[Record], place: Range<usize>) -> usize {
        self.immunizations.clear();
        let mut at = place.start + 1;
        while at < place.end && records[at].kind == Kind::II {
            let start = at;
            at += 1;
            while at < place.end && records[at].kind == Kind::IE {
                at += 1;
            }
            self.immunizations.push(Immunization {
                run: start..at,
                is_first: true,
                next: None,
            });
        }
        at
    }

    /// Ties each immunization to the next one of its event.
    fn chain(&mut self, records: &[Record]) {
        self.few.clear();
        for number in 0..self.immunizations.len() {
            let first = &records[self.immunizations[number].run.start];
            if let Some(before) = self.met(key(self.patients, first), number) {
                self.immunizations[before].next = Some(number);
                self.immunizations[number].is_first = false;
            }
        }
    }

    /// Notes an immunization of an event. Gives back the one that was met last.
    fn met(&mut self, key: Key, number: usize) -> Option<usize> {
        if self.immunizations.len() > FEW {
            return self.last.insert(key, number);
        }
        match self.few.iter_mut().find(|(other, _)| *other == key) {
            Some((_, last)) => Some(std::mem::replace(last, number)),
            None => {
                self.few.push((key, number));
                None
            }
        }
    }
}

/// Fields that are equal as written, and no others, have the same bytes in it: a
/// text without blanks at its ends, then blanks.
fn key(patient: u32, immunization: &Record) -> Key {
    let mut key = [b' '; 40];
    let mut start = 0;
    for field in EVENT {
        let width = field.len();
        let text = immunization.field_at(field);
        key[start..start + text.len()].copy_from_slice(text);
        start += width;
    }
    key[PATIENT].copy_from_slice(&patient.to_le_bytes());
    key
}

/// A hash of eight bytes at a time.
#[derive(Default)]
struct Mixed(u64);

impl Hasher for Mixed {
    fn write(&mut self, bytes: &[u8]) {
        for word in bytes.chunks(8) {
            let mut number = [0; 8];
            number[..word.len()].copy_from_slice(word);
            self.0 = (self.0 ^ u64::from_le_bytes(number)).wrapping_mul(0x9e37_79b9_7f4a_7c15);
            self.0 ^= self.0 >> 29;
        }
    }

    fn finish(&self) -> u64 {
        self.0
    }
}
