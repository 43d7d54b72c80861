//! A case, what is said of it, and the stream that carries both.

pub mod writing;

use crate::check::{self, Answer};
use crate::fields::{self, Document};
use std::io::{self, Read, Write};

/// The byte that fills the findings area before the check.
pub const FILL: u8 = 0xEE;

#[derive(Clone, Debug, Default, PartialEq, Eq)]
pub struct Case {
    pub today: u32,
    pub file: Vec<u8>,
    pub book: Vec<u8>,
    pub ledger: Vec<u8>,
    /// The bytes of the findings area.
    pub room: usize,
}

/// What a program says of a case: the eight numbers and three hashes, of the
/// ledger after, of the findings area after and of what is said of fields.
#[derive(Clone, Copy, Debug, PartialEq, Eq)]
pub struct Verdict {
    pub numbers: [u32; 8],
    pub ledger: u64,
    pub area: u64,
    pub fields: u64,
}

/// The answer with the bytes after.
pub struct Outcome {
    pub answer: Answer,
    pub ledger: Vec<u8>,
    pub area: Vec<u8>,
}

impl Case {
    pub fn outcome(&self) -> Outcome {
        let mut ledger = self.ledger.clone();
        let mut area = vec![FILL; self.room];
        let answer = check::check(self.today, &self.file, &self.book, &mut ledger, &mut area);
        Outcome {
            answer,
            ledger,
            area,
        }
    }

    pub fn verdict(&self) -> Verdict {
        let outcome = self.outcome();
        Verdict {
            numbers: outcome.answer.numbers(),
            ledger: fnv_1a(&outcome.ledger),
            area: fnv_1a(&outcome.area),
            fields: fields::answers(&self.file, &mut Document::of(&self.file)),
        }
    }

    pub fn write(&self, stream: &mut impl Write) -> io::Result<()> {
        stream.write_all(&self.today.to_le_bytes())?;
        for bytes in [&self.file, &self.book, &self.ledger] {
            write_bytes(stream, bytes)?;
        }
        stream.write_all(&(self.room as u32).to_le_bytes())
    }

    /// The next case of a stream, or nothing at its end.
    pub fn read(stream: &mut impl Read) -> io::Result<Option<Case>> {
        let Some(today) = read_first_number(stream)? else {
            return Ok(None);
        };
        let file = read_bytes(stream)?;
        let book = read_bytes(stream)?;
        let ledger = read_bytes(stream)?;
        let room = read_number(stream)? as usize;
        Ok(Some(Case {
            today,
            file,
            book,
            ledger,
            room,
        }))
    }
}

/// A number, or nothing where the stream ends before its first byte.
fn read_first_number(stream: &mut impl Read) -> io::Result<Option<u32>> {
    let mut first = [0];
    if stream.read(&mut first)? == 0 {
        return Ok(None);
    }
    let mut rest = [0; 3];
    stream.read_exact(&mut rest)?;
    Ok(Some(u32::from_le_bytes([
        first[0], rest[0], rest[1], rest[2],
    ])))
}

fn write_bytes(stream: &mut impl Write, bytes: &[u8]) -> io::Result<()> {
    stream.write_all(&(bytes.len() as u32).to_le_bytes())?;
    stream.write_all(bytes)
}

fn read_number(stream: &mut impl Read) -> io::Result<u32> {
    let mut bytes = [0; 4];
    stream.read_exact(&mut bytes)?;
    Ok(u32::from_le_bytes(bytes))
}

fn read_bytes(stream: &mut impl Read) -> io::Result<Vec<u8>> {
    let mut bytes = vec![0; read_number(stream)? as usize];
    stream.read_exact(&mut bytes)?;
    Ok(bytes)
}

impl Verdict {
    /// The line that a batch program prints.
    pub fn line(&self) -> String {
        let numbers: Vec<String> = self.numbers.iter().map(u32::to_string).collect();
        format!(
            "{} {:016x} {:016x} {:016x}",
            numbers.join(" "),
            self.ledger,
            self.area,
            self.fields
        )
    }

    /// What a line of a batch program says.
    pub fn of_line(line: &str) -> Option<Verdict> {
        let words: Vec<&str> = line.split_whitespace().collect();
        if words.len() != 11 {
            return None;
        }
        let mut numbers = [0; 8];
        for (number, word) in numbers.iter_mut().zip(&words) {
            *number = word.parse().ok()?;
        }
        let hash = |word| u64::from_str_radix(word, 16).ok();
        Some(Verdict {
            numbers,
            ledger: hash(words[8])?,
            area: hash(words[9])?,
            fields: hash(words[10])?,
        })
    }
}

/// The 64-bit FNV-1a hash.
pub fn fnv_1a(bytes: &[u8]) -> u64 {
    bytes.iter().fold(0xcbf2_9ce4_8422_2325, |hash, &byte| {
        mixed(hash, u64::from(byte))
    })
}

/// A step of that hash.
pub fn mixed(hash: u64, number: u64) -> u64 {
    (hash ^ number).wrapping_mul(0x0100_0000_01b3)
}
