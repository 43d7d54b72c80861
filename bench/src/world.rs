//! What a file is written against: a code book, a ledger of live events, and the
//! events that the file may name.

use crate::codes::{self, Codes, Vaccine};
use crate::submission::Dose;
use differential::check::date;
use differential::check::ledger::{self, Event, KIND_FREE, KIND_LIVE, SLOT_WIDTH};
use differential::random::Random;
use std::collections::{BTreeSet, HashSet};

pub const TODAY: u32 = 20220930;
pub const TOMORROW: u32 = 20221001;

pub const FILE_MOST: usize = 5_000_000;
const BOOK_BYTES: usize = 200_000;
const SLOTS: usize = 100_000;

/// A size: full, or a part of it. File, book and ledger shrink alike.
#[derive(Clone, Copy, PartialEq, Eq)]
pub struct Size {
    pub parts: usize,
}

impl Size {
    pub fn file(self) -> usize {
        FILE_MOST / self.parts
    }

    pub fn book(self) -> usize {
        BOOK_BYTES / self.parts
    }

    fn slots(self) -> usize {
        SLOTS / self.parts
    }

    pub fn name(self) -> String {
        match self.parts {
            1 => "full".to_string(),
            parts => format!("1/{parts}"),
        }
    }
}

pub struct World {
    pub random: Random,
    pub size: Size,
    pub codes: Codes,
    /// The live events, ascending.
    pub live: Vec<Event>,
    /// The events that are live or named by the file.
    taken: HashSet<Event>,
}

impl World {
    /// A world whose ledger has this share of its slots live.
    pub fn new(mut random: Random, size: Size, codes: Codes, live_percent: usize) -> World {
        let mut live = BTreeSet::new();
        while live.len() < size.slots() * live_percent / 100 {
            let vaccine = codes.vaccine(&mut random).code.clone();
            live.insert(event(&uli(&mut random), day(&mut random), &vaccine));
        }
        World {
            random,
            size,
            codes,
            taken: live.iter().copied().collect(),
            live: live.into_iter().collect(),
        }
    }

    pub fn ledger(&self) -> Vec<u8> {
        let mut bytes = Vec::with_capacity(self.size.slots() * SLOT_WIDTH);
        for event in &self.live {
            bytes.push(KIND_LIVE);
            bytes.extend_from_slice(event);
        }
        bytes.resize(self.size.slots() * SLOT_WIDTH, KIND_FREE);
        bytes
    }

    pub fn uli(&mut self) -> String {
        uli(&mut self.random)
    }

    pub fn birth(&mut self) -> u32 {
        any_day(&mut self.random, 1930, 2014)
    }

    pub fn day(&mut self) -> u32 {
        day(&mut self.random)
    }

    /// A dose of an event that is not live and that the file did not name.
    pub fn new_dose(&mut self, uli: &str) -> (usize, Dose) {
        loop {
            let vaccine = self.random.below(self.codes.vaccines.len());
            let day = self.day();
            let event = event(uli, day, &self.codes.vaccines[vaccine].code);
            if self.taken.insert(event) {
                return (vaccine, self.dose(uli, day, vaccine));
            }
        }
    }

    /// A sound add of this vaccine, by its number in the book.
    pub fn dose(&mut self, uli: &str, date: u32, vaccine: usize) -> Dose {
        let random = &mut self.random;
        let vaccine = &self.codes.vaccines[vaccine];
        Dose {
            uli: uli.to_string(),
            submission_type: "A",
            date,
            vaccine: vaccine.code.clone(),
            site: codes::one_of(random, &["LA", "RA", "LVG", "RL"]),
            method: codes::one_of(random, &["IM", "SC", "ID"]),
            reason: random.pick(&vaccine.reasons).clone(),
            dosage: codes::one_of(random, &["0.5", "1", "0.25", "2.0"]),
            dosage_type: codes::dosage_type(random),
            manufacturer: codes::manufacturer(random),
            lot: lot(random),
        }
    }

    pub fn vaccine(&self, number: usize) -> &Vaccine {
        &self.codes.vaccines[number]
    }

    /// The number in the book of the vaccine that an event names.
    pub fn vaccine_of(&self, event: &Event) -> usize {
        let code = text(&event[17..]);
        let place = self.codes.vaccines.iter().position(|it| it.code == code);
        place.expect("live events are of vaccines in the book")
    }
}

pub fn uli_of(event: &Event) -> String {
    text(&event[..9])
}

pub fn day_of(event: &Event) -> u32 {
    text(&event[9..17]).parse().expect("a date is digits")
}

fn text(bytes: &[u8]) -> String {
    String::from_utf8_lossy(bytes).trim_end().to_string()
}

fn event(uli: &str, day: u32, vaccine: &str) -> Event {
    ledger::event(
        uli.as_bytes(),
        day.to_string().as_bytes(),
        vaccine.as_bytes(),
    )
}

fn uli(random: &mut Random) -> String {
    random.between(100_000_000, 999_999_999).to_string()
}

fn lot(random: &mut Random) -> String {
    format!("L{}", random.between(1, 9999))
}

fn day(random: &mut Random) -> u32 {
    any_day(random, 2015, 2021)
}

fn any_day(random: &mut Random, first_year: usize, last_year: usize) -> u32 {
    let year = random.between(first_year, last_year) as u32;
    let month = random.between(1, 12) as u32;
    let day = random.between(1, date::days_in(year, month) as usize) as u32;
    10_000 * year + 100 * month + day
}
