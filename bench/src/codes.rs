//! Code books: the codes that the files use, and the bytes that hold them.

use differential::generate::world::{Entry, OPEN};
use differential::random::Random;
use std::collections::BTreeSet;

/// In the book, with no vaccine.
pub const REASON_ALONE: &str = "99";
/// In the book, and ended.
pub const MANUFACTURER_ENDED: &str = "OLD";
/// In no book.
pub const VACCINE_UNKNOWN: &str = "-";

const REASONS: std::ops::Range<usize> = 1..60;
const MANUFACTURERS: [&str; 8] = ["GSK", "PMC", "MF", "PFI", "NOV", "SPL", "VAL", "BER"];
const DOSAGE_TYPES: [&str; 4] = ["ML", "MCG", "UNIT", "CAP"];
const REASONS_NOT: [&str; 5] = ["CON", "IMM", "REF", "DEF", "UNK"];
const VACCINE_START: u32 = 20000101;

/// A vaccine and what may stand beside it.
pub struct Vaccine {
    pub code: String,
    pub antigens: Vec<String>,
    pub reasons: Vec<String>,
}

pub struct Codes {
    pub vaccines: Vec<Vaccine>,
    pub antigens: Vec<String>,
    pub bytes: Vec<u8>,
}

impl Codes {
    /// Many vaccines, each with a few antigens and reasons, in about this many
    /// bytes.
    pub fn of_clinic(random: &mut Random, bytes: usize) -> Codes {
        let antigens = names(random, bytes / 250 + 8);
        let mut room = bytes - bytes / 8;
        let mut vaccines = Vec::new();
        for code in names(random, bytes / 200 + 8) {
            let vaccine = Vaccine {
                code,
                antigens: some(random, &antigens, 4),
                reasons: some(random, &reasons(), 4),
            };
            let width = 37 + 31 * vaccine.reasons.len() + 49 * vaccine.antigens.len();
            if room < width {
                break;
            }
            room -= width;
            vaccines.push(vaccine);
        }
        Codes::new(vaccines, antigens)
    }

    /// One vaccine with as many antigens as about this many bytes hold.
    pub fn of_antigens(bytes: usize) -> Codes {
        let antigens: Vec<String> = (0..(bytes - 1000) / 78)
            .map(|number| format!("ANTIGEN-NUMBER-{number:05}"))
            .collect();
        let vaccine = Vaccine {
            code: "WHOLE".to_string(),
            antigens: antigens.clone(),
            reasons: reasons(),
        };
        Codes::new(vec![vaccine], antigens)
    }

    fn new(vaccines: Vec<Vaccine>, antigens: Vec<String>) -> Codes {
        let bytes = book(&vaccines, &antigens);
        Codes {
            vaccines,
            antigens,
            bytes,
        }
    }

    pub fn vaccine(&self, random: &mut Random) -> &Vaccine {
        random.pick(&self.vaccines)
    }
}

pub fn one_of(random: &mut Random, list: &[&'static str]) -> &'static str {
    list[random.below(list.len())]
}

pub fn manufacturer(random: &mut Random) -> &'static str {
    one_of(random, &MANUFACTURERS)
}

pub fn dosage_type(random: &mut Random) -> &'static str {
    one_of(random, &DOSAGE_TYPES)
}

pub fn reason_not(random: &mut Random) -> &'static str {
    one_of(random, &REASONS_NOT)
}

/// The shortest codes, numbered from 1: all of one byte, then all of two, and on.
pub fn shortest(number: usize) -> String {
    let bytes: Vec<u8> = (33..=126).filter(|&byte| byte != b'|').collect();
    numbered(number, &bytes)
}

/// The shortest lots, numbered from 1.
pub fn lot(number: usize) -> String {
    numbered(
        number,
        b"ABCDEFGHIJKLMNOPQRSTUVWXYZabcdefghijklmnopqrstuvwxyz0123456789-",
    )
}

fn numbered(mut number: usize, bytes: &[u8]) -> String {
    let mut text = String::new();
    while number > 0 {
        number -= 1;
        text.push(bytes[number % bytes.len()] as char);
        number /= bytes.len();
    }
    text
}

fn reasons() -> Vec<String> {
    REASONS.map(|reason| format!("{reason:02}")).collect()
}

/// Different names of 3 to 9 letters, in no order.
fn names(random: &mut Random, count: usize) -> Vec<String> {
    let mut names = BTreeSet::new();
    while names.len() < count {
        let length = random.between(3, 9);
        names.insert(
            (0..length)
                .map(|_| *random.pick(b"ABCDEFGHIJKLMNOPQRSTUVWXYZ") as char)
                .collect::<String>(),
        );
    }
    let mut names: Vec<String> = names.into_iter().collect();
    random.shuffle(&mut names);
    names
}

/// One or more of the list, each once.
fn some(random: &mut Random, list: &[String], most: usize) -> Vec<String> {
    let count = random.between(1, most);
    let picked: BTreeSet<&String> = (0..count).map(|_| random.pick(list)).collect();
    picked.into_iter().cloned().collect()
}

/// Document 01's Book E: one entry of each kind but 6.
pub fn book_e() -> Vec<u8> {
    let (vaccine, antigen, reason) = ("TESTV", "TESTA", "50");
    let mut entries = [
        entry(1, &[vaccine], OPEN),
        entry(2, &[antigen], OPEN),
        entry(3, &[reason], OPEN),
        entry(4, &["GSK"], OPEN),
        entry(5, &["ML"], OPEN),
        entry(7, &[vaccine, reason], OPEN),
        entry(8, &[vaccine, antigen], OPEN),
    ];
    entries[0].start = Some(VACCINE_START);
    entries.iter().flat_map(Entry::bytes).collect()
}

fn book(vaccines: &[Vaccine], antigens: &[String]) -> Vec<u8> {
    let mut entries: Vec<Entry> = Vec::new();
    for vaccine in vaccines {
        let mut started = entry(1, &[&vaccine.code], OPEN);
        started.start = Some(VACCINE_START);
        entries.push(started);
        entries.extend(pairs(7, &vaccine.code, &vaccine.reasons));
        entries.extend(pairs(8, &vaccine.code, &vaccine.antigens));
    }
    entries.extend(antigens.iter().map(|code| entry(2, &[code], OPEN)));
    entries.extend(reasons().iter().map(|code| entry(3, &[code], OPEN)));
    entries.push(entry(3, &[REASON_ALONE], OPEN));
    entries.extend(MANUFACTURERS.iter().map(|code| entry(4, &[code], OPEN)));
    entries.push(entry(4, &[MANUFACTURER_ENDED], 20101231));
    entries.extend(DOSAGE_TYPES.iter().map(|code| entry(5, &[code], OPEN)));
    entries.extend(REASONS_NOT.iter().map(|code| entry(6, &[code], OPEN)));
    entries.sort_by_key(Entry::key);
    entries.iter().flat_map(Entry::bytes).collect()
}

fn pairs<'a>(kind: u8, vaccine: &'a str, others: &'a [String]) -> impl Iterator<Item = Entry> + 'a {
    others
        .iter()
        .map(move |other| entry(kind, &[vaccine, other], OPEN))
}

fn entry(kind: u8, codes: &[&str], end: u32) -> Entry {
    Entry {
        kind,
        codes: codes.iter().map(|code| code.as_bytes().to_vec()).collect(),
        start: None,
        end,
    }
}
