//! The writer of document 02's CR 3, written from its text alone and with nothing
//! shared with the product: chart records in, a submission out.

pub mod chart;
mod order;

use crate::check::FILE_MOST;
use chart::{Fault, Record};

pub const WRITTEN: u32 = 0;
pub const RECORD: u32 = 8;
pub const ROOM: u32 = 9;

/// The bytes that a line has room for beside those of its chart record: two of
/// type, a number, a pipe behind each field and LF.
const BESIDE: usize = 64;

/// The lines of a file that are no chart records: IV, IH and IF.
const OTHER_LINES: usize = 3;

#[derive(Clone, Copy, Debug, Default, PartialEq, Eq)]
pub struct Written {
    pub answer: u32,
    pub length: u32,
}

/// Writes the file to the start of the area; at RECORD and ROOM the area stays.
pub fn write(prefix: &[u8], batch: &[u8], chart: &[u8], area: &mut [u8]) -> Written {
    let written = match read(prefix, batch, chart) {
        Ok(records) => file(prefix, batch, &records, area.len().min(FILE_MOST)).ok_or(ROOM),
        Err(_) => Err(RECORD),
    };
    match written {
        Ok(file) => {
            area[..file.len()].copy_from_slice(&file);
            Written {
                answer: WRITTEN,
                length: file.len() as u32,
            }
        }
        Err(answer) => Written { answer, length: 0 },
    }
}

/// The chart records, or a reason for RECORD.
pub fn read<'a>(prefix: &[u8], batch: &[u8], chart: &'a [u8]) -> Result<Vec<Record<'a>>, Fault> {
    if !is_letters_or_digits(prefix, 3) {
        return Err(Fault::Prefix);
    }
    if !is_letters_or_digits(batch, 10) {
        return Err(Fault::Batch);
    }
    chart::records(chart)
}

/// The finished file, if it has at most so many bytes.
pub fn file(prefix: &[u8], batch: &[u8], records: &[Record], most: usize) -> Option<Vec<u8>> {
    let runs = order::runs(records);
    let ordered = runs.into_iter().flat_map(|run| &records[run]);
    file_in_order(prefix, batch, ordered, most)
}

/// The file of records as they come, if it has at most so many bytes.
pub fn file_in_order<'r, 'a: 'r>(
    prefix: &[u8],
    batch: &[u8],
    records: impl Iterator<Item = &'r Record<'a>>,
    most: usize,
) -> Option<Vec<u8>> {
    let mut file = Vec::with_capacity(most.min(FILE_MOST));
    for part in [b"IV|7.2|\nIH|", prefix, b"|", batch, b"|\n"] {
        file.extend_from_slice(part);
    }
    let mut number = 0;
    for record in records {
        number += 1;
        push_line(&mut file, number, record);
        if file.len() > most {
            return None;
        }
    }
    file.extend_from_slice(b"IF|");
    push_number(&mut file, number + OTHER_LINES);
    file.extend_from_slice(b"|0|\n");
    (file.len() <= most).then_some(file)
}

/// The form of IH 2 and of IH 3.
fn is_letters_or_digits(text: &[u8], most: usize) -> bool {
    (1..=most).contains(&text.len()) && text.iter().all(u8::is_ascii_alphanumeric)
}

fn push_line(file: &mut Vec<u8>, number: usize, record: &Record) {
    file.reserve(record.most() + BESIDE);
    file.extend_from_slice(record.type_name());
    push_number(file, number);
    file.push(b'|');
    for field in record.fields() {
        if !field.is_empty() {
            file.extend_from_slice(field);
        }
        file.push(b'|');
    }
    file.push(b'\n');
}

fn push_number(file: &mut Vec<u8>, mut number: usize) {
    let mut digits = [0; 20];
    let mut first = digits.len();
    while number > 0 || first == digits.len() {
        first -= 1;
        digits[first] = b'0' + (number % 10) as u8;
        number /= 10;
    }
    file.extend_from_slice(&digits[first..]);
}
