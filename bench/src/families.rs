//! The families of inputs: each gives a file of any size, with a book and a
//! ledger that go with it.

mod clinics;
mod edges;
mod lists;
mod rereading;

use crate::codes::{self, Codes};
use crate::submission::Submission;
use crate::world::{Size, World, TODAY};
use clinics::*;
use differential::case::Case;
use differential::check::{ACCEPTED, FINDINGS};
use differential::random::Random;
use edges::*;
use lists::*;
use rereading::*;

/// The bytes of the findings area.
pub const ROOM: usize = 60_000;
const SEED: u64 = 1;
const BIRTH: u32 = 19500101;

pub struct Family {
    pub name: &'static str,
    /// What is in its files.
    pub about: &'static str,
    /// The answer that each of its files gets.
    pub answer: u32,
    /// Whether its files have long lists, for which `bench/run --limits` is.
    pub has_lists: bool,
    live_percent: usize,
    codes: fn(&mut Random, usize) -> Codes,
    file: fn(&mut World) -> Vec<u8>,
}

impl Family {
    pub fn case(&self, size: Size) -> Case {
        let mut random = Random::of(SEED, size.parts as u64);
        let codes = (self.codes)(&mut random, size.book());
        let mut world = World::new(random, size, codes, self.live_percent);
        let file = (self.file)(&mut world);
        Case {
            today: TODAY,
            file,
            ledger: world.ledger(),
            book: world.codes.bytes,
            room: ROOM,
        }
    }
}

/// The smallest whole submission, of 30 bytes, with a book of seven entries and a
/// ledger of no slots.
pub fn smallest() -> Case {
    Case {
        today: TODAY,
        file: Submission::new(0).finish(),
        book: codes::book_e(),
        ledger: Vec::new(),
        room: ROOM,
    }
}

pub fn all() -> Vec<Family> {
    plain().into_iter().chain(with_lists()).collect()
}

fn usual(
    name: &'static str,
    answer: u32,
    file: fn(&mut World) -> Vec<u8>,
    about: &'static str,
) -> Family {
    Family {
        name,
        about,
        answer,
        has_lists: false,
        live_percent: 60,
        codes: Codes::of_clinic,
        file,
    }
}

fn plain() -> Vec<Family> {
    vec![
        usual(
            "flu clinic",
            ACCEPTED,
            flu_clinic,
            "one added event a patient, patients in no order",
        ),
        usual(
            "flu clinic, 5% findings",
            FINDINGS,
            flu_clinic_with_findings,
            "the same, one event in twenty breaking a rule",
        ),
        usual(
            "travel clinic",
            ACCEPTED,
            travel_clinic,
            "two to five events a patient, one to three lots each",
        ),
        usual(
            "flu clinic, whole records",
            ACCEPTED,
            whole_flu_clinic,
            "as the flu clinic, with names, addresses and who gave it",
        ),
        usual(
            "travel clinic, whole records",
            ACCEPTED,
            whole_travel_clinic,
            "as the travel clinic, with the same",
        ),
        usual(
            "changes and deletes",
            ACCEPTED,
            changes_and_deletes,
            "live events changed or deleted, one a patient",
        ),
        usual(
            "not immunized",
            ACCEPTED,
            not_immunized,
            "IN and IA records only",
        ),
        Family {
            live_percent: 40,
            ..usual(
                "one patient",
                ACCEPTED,
                one_patient,
                "one IP with all events, all different",
            )
        },
        usual(
            "distinct events",
            FINDINGS,
            distinct_events,
            "as many different blocks as the bytes hold, in the shortest lines",
        ),
        usual(
            "repeats",
            FINDINGS,
            repeats,
            "two events in turn, sound but for rule 15 on each from the third on",
        ),
        usual(
            "shortest repeats",
            FINDINGS,
            shortest_repeats,
            "two events in turn, as many as the bytes hold, in the shortest lines",
        ),
        usual(
            "most findings",
            FINDINGS,
            most_findings,
            "one II with as many IE records as fit, all of their fields empty",
        ),
        usual(
            "long name",
            ACCEPTED,
            long_name,
            "one patient whose name is half of the file, events in the other half",
        ),
        usual(
            "long number of an IP",
            FINDINGS,
            long_ip_number,
            "one patient whose field 2 is half of the file, events in the shortest lines",
        ),
        usual(
            "long field 7",
            FINDINGS,
            long_field_7,
            "one II whose field 7 is half of the file, with one antigen over and over",
        ),
        usual(
            "long tie",
            FINDINGS,
            long_tie,
            "events that differ in the vaccine only, the last of them with a field 7 that is half of the file",
        ),
        usual(
            "long middle",
            FINDINGS,
            long_middle,
            "different events and a repeat, the middle one with a field 2 that is half of the file",
        ),
    ]
}

/// A family whose files have long lists.
fn lists(
    name: &'static str,
    answer: u32,
    file: fn(&mut World) -> Vec<u8>,
    about: &'static str,
) -> Family {
    Family {
        has_lists: true,
        ..usual(name, answer, file, about)
    }
}

/// A family with a book that is all antigens.
fn lists_of_book(
    name: &'static str,
    answer: u32,
    file: fn(&mut World) -> Vec<u8>,
    about: &'static str,
) -> Family {
    Family {
        codes: |_, bytes| Codes::of_antigens(bytes),
        ..lists(name, answer, file, about)
    }
}

fn with_lists() -> Vec<Family> {
    vec![
        lists(
            "one block of lots",
            ACCEPTED,
            one_block,
            "one event with as many lots as fit",
        ),
        lists(
            "one block of shortest lots",
            FINDINGS,
            shortest_lots,
            "the same, in the shortest lines",
        ),
        lists(
            "one block of one lot",
            FINDINGS,
            one_lot,
            "one event with one lot over and over, in the shortest lines",
        ),
        lists_of_book(
            "antigens of the book",
            ACCEPTED,
            antigens_of_the_book,
            "one block, each II with every antigen of a book that is all antigens",
        ),
        lists(
            "one II of antigens",
            FINDINGS,
            one_immunization,
            "one II with as many antigens as fit, most of them in no book",
        ),
        lists(
            "one II of shortest antigens",
            FINDINGS,
            shortest_antigens,
            "the same, in the shortest lines and in no order",
        ),
        lists(
            "one II of longest antigens",
            FINDINGS,
            longest_antigens,
            "the same, with antigens of 20 bytes that differ in the last six only",
        ),
        lists(
            "one II of one antigen",
            FINDINGS,
            one_antigen,
            "one II with one antigen over and over, in the shortest lines",
        ),
        lists_of_book(
            "one II of the book",
            FINDINGS,
            antigens_of_the_book_again,
            "one II with every antigen of a book that is all antigens, over and over",
        ),
        lists(
            "first II of many, then of one",
            FINDINGS,
            many_then_one,
            "one block, the first II half of the file, the others with one antigen of it each",
        ),
        lists(
            "first II of one, then of many",
            FINDINGS,
            one_then_many,
            "one block, the second II nearly all of the file, the first with one antigen of it",
        ),
        lists(
            "first II of one, then of hundreds",
            FINDINGS,
            one_then_hundreds,
            "one block, the first II with one antigen, the others with the same 300 each",
        ),
        lists_of_book(
            "one set in any order",
            ACCEPTED,
            set_in_any_order,
            "one block, each II with the same antigens of the book, up to 300, in another order",
        ),
        lists(
            "shortest set in any order",
            FINDINGS,
            shortest_set_in_any_order,
            "one block, each II with the same 300 antigens in another order, in the shortest lines",
        ),
        lists(
            "two IIs of one set",
            FINDINGS,
            two_of_one_set,
            "two IIs that are half of the file each, with the same antigens in another order",
        ),
        lists(
            "two IIs of counts",
            FINDINGS,
            two_of_counts,
            "the same, each antigen with the counts 1 to 99",
        ),
        lists(
            "one antigen and another",
            FINDINGS,
            one_antigen_and_another,
            "one block, the first II half of the file: one antigen over and over, then another; the others with these two",
        ),
        lists(
            "two antigens, then hundreds",
            FINDINGS,
            two_antigens_then_hundreds,
            "one block, the first II with two antigens, the others with one of them 300 times and the other",
        ),
    ]
}
