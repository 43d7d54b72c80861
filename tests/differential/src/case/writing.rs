//! A call of the writer, what is said of it, and the stream that carries both.

use super::{fnv_1a, read_bytes, read_first_number, read_number, write_bytes, Case, FILL};
use crate::write::{self, Written, WRITTEN};
use std::io::{self, Read, Write};

/// The bytes of the findings area of the check that follows.
const FINDINGS_ROOM: usize = 600;

/// What the writer gets, and what the file that it writes is then checked by.
#[derive(Clone, Debug, Default, PartialEq, Eq)]
pub struct WriteCase {
    pub prefix: Vec<u8>,
    pub batch: Vec<u8>,
    pub chart: Vec<u8>,
    /// The bytes of the lent area.
    pub room: usize,
    pub today: u32,
    pub book: Vec<u8>,
    pub ledger: Vec<u8>,
}

/// The answer and the length, a hash of the lent area after, and what the check
/// says of the file: its eight numbers and the hashes of ledger and findings area
/// after. Where no file was written, the check is not called.
#[derive(Clone, Copy, Debug, PartialEq, Eq)]
pub struct WriteVerdict {
    pub written: Written,
    pub area: u64,
    pub numbers: [u32; 8],
    pub ledger: u64,
    pub findings: u64,
}

impl WriteCase {
    /// The answer, and the area after.
    pub fn outcome(&self) -> (Written, Vec<u8>) {
        let mut area = vec![FILL; self.room];
        let written = write::write(&self.prefix, &self.batch, &self.chart, &mut area);
        (written, area)
    }

    /// The finished file, whatever room is lent; none where there is no file of
    /// at most 5,000,000 bytes.
    pub fn file(&self) -> Option<Vec<u8>> {
        let records = write::read(&self.prefix, &self.batch, &self.chart).ok()?;
        write::file(&self.prefix, &self.batch, &records, crate::check::FILE_MOST)
    }

    /// The check of a file.
    pub fn check_of(&self, file: &[u8]) -> Case {
        Case {
            today: self.today,
            file: file.to_vec(),
            book: self.book.clone(),
            ledger: self.ledger.clone(),
            room: FINDINGS_ROOM,
        }
    }

    pub fn verdict(&self) -> WriteVerdict {
        let (written, area) = self.outcome();
        self.verdict_of(written, &area)
    }

    /// What is said where a writer gives this answer and leaves this area.
    pub fn verdict_of(&self, written: Written, area: &[u8]) -> WriteVerdict {
        let (numbers, ledger, findings) = if written.answer == WRITTEN {
            let length = area.len().min(written.length as usize);
            let after = self.check_of(&area[..length]).outcome();
            (after.answer.numbers(), after.ledger, after.area)
        } else {
            ([0; 8], self.ledger.clone(), vec![FILL; FINDINGS_ROOM])
        };
        WriteVerdict {
            written,
            area: fnv_1a(area),
            numbers,
            ledger: fnv_1a(&ledger),
            findings: fnv_1a(&findings),
        }
    }

    pub fn write(&self, stream: &mut impl Write) -> io::Result<()> {
        stream.write_all(&self.today.to_le_bytes())?;
        let parts = [&self.prefix, &self.batch, &self.chart];
        for bytes in parts.into_iter().chain([&self.book, &self.ledger]) {
            write_bytes(stream, bytes)?;
        }
        stream.write_all(&(self.room as u32).to_le_bytes())
    }

    /// The next case of a stream, or nothing at its end.
    pub fn read(stream: &mut impl Read) -> io::Result<Option<WriteCase>> {
        let Some(today) = read_first_number(stream)? else {
            return Ok(None);
        };
        Ok(Some(WriteCase {
            today,
            prefix: read_bytes(stream)?,
            batch: read_bytes(stream)?,
            chart: read_bytes(stream)?,
            book: read_bytes(stream)?,
            ledger: read_bytes(stream)?,
            room: read_number(stream)? as usize,
        }))
    }
}

impl WriteVerdict {
    /// The line that a batch program prints.
    pub fn line(&self) -> String {
        let Written { answer, length } = self.written;
        let numbers: Vec<String> = self.numbers.iter().map(u32::to_string).collect();
        format!(
            "{answer} {length} {:016x} {} {:016x} {:016x}",
            self.area,
            numbers.join(" "),
            self.ledger,
            self.findings
        )
    }

    /// What a line of a batch program says.
    pub fn of_line(line: &str) -> Option<WriteVerdict> {
        let words: Vec<&str> = line.split_whitespace().collect();
        if words.len() != 13 {
            return None;
        }
        let hash = |word| u64::from_str_radix(word, 16).ok();
        let mut numbers = [0; 8];
        for (number, word) in numbers.iter_mut().zip(&words[3..]) {
            *number = word.parse().ok()?;
        }
        Some(WriteVerdict {
            written: Written {
                answer: words[0].parse().ok()?,
                length: words[1].parse().ok()?,
            },
            area: hash(words[2])?,
            numbers,
            ledger: hash(words[11])?,
            findings: hash(words[12])?,
        })
    }
}
