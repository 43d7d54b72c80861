//! A chart as it is made: records up to a length of the file that they give.

use differential::check::shape::Kind;
use differential::write::chart::{length, widths, FIRST_FIELD};

pub const PREFIX: &[u8] = b"10";
pub const BATCH: &[u8] = b"000001";

const START: usize = b"IV|7.2|\nIH|10|000001|\n".len();
/// IF with a count of so many digits as any count has.
const FOOTER: usize = b"IF|1234567|0|\n".len();

pub struct Chart {
    bytes: Vec<u8>,
    now: Mark,
    /// What fitted.
    fitted: Mark,
    longest: usize,
}

/// How far a chart is written: its bytes, its records, and the bytes of its file.
#[derive(Clone, Copy)]
struct Mark {
    bytes: usize,
    records: usize,
    file: usize,
}

impl Chart {
    /// The chart of a file of at most this many bytes.
    pub fn new(longest: usize) -> Chart {
        let now = Mark {
            bytes: 0,
            records: 0,
            file: START,
        };
        Chart {
            bytes: Vec::new(),
            now,
            fitted: now,
            longest,
        }
    }

    /// A record with these texts in these fields, all others blank. The texts have
    /// no blanks at their ends.
    pub fn record(&mut self, kind: Kind, fields: &[(usize, &str)]) {
        self.bytes.push(kind_byte(kind));
        let start = self.bytes.len();
        self.bytes.resize(start + length(kind), b' ');
        let widths = widths(kind);
        for &(number, text) in fields {
            let before: usize = widths[..number - FIRST_FIELD].iter().sum();
            let place = start + before;
            self.bytes[place..place + text.len()].copy_from_slice(text.as_bytes());
        }
        let texts: usize = fields.iter().map(|(_, text)| text.len()).sum();
        self.now.records += 1;
        let number = self.now.records.ilog10() as usize + 1;
        // A type of two bytes, a pipe behind each field, and LF.
        self.now.file += 2 + number + texts + kind.field_count() + 1;
        self.now.bytes = self.bytes.len();
    }

    /// Whether the file of all that is written so far fits. Otherwise what was
    /// written since the last time that it did is taken back.
    pub fn fits(&mut self) -> bool {
        let fits = self.now.file + FOOTER <= self.longest;
        if fits {
            self.fitted = self.now;
        } else {
            self.bytes.truncate(self.fitted.bytes);
            self.now = self.fitted;
        }
        fits
    }

    pub fn longest(&self) -> usize {
        self.longest
    }

    pub fn finish(mut self) -> Vec<u8> {
        self.fits();
        self.bytes
    }
}

fn kind_byte(kind: Kind) -> u8 {
    match kind {
        Kind::IP => 1,
        Kind::II => 2,
        Kind::IE => 3,
        Kind::IN => 4,
        _ => 5,
    }
}
