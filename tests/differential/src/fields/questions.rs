//! What is asked of a file's fields: some pairs of line and field, walks along
//! the lines, and any numbers at all. Both sides draw the same numbers from the
//! file's own bytes.

use super::{Line, Reader, Text};
use crate::case::{fnv_1a, mixed};
use crate::random::Random;

const PAIRS: usize = 8;
const STRAYS: usize = 16;

/// More fields than a record has.
const FIELDS: usize = 30;

/// The lines of one walk whose fields are read, about.
const READ: usize = 32;

/// The hash of all that a reader answers.
pub fn answers(file: &[u8], reader: &mut impl Reader) -> u64 {
    let mut questions = Questions {
        file,
        lines: 1 + file.iter().filter(|&&byte| byte == b'\n').count(),
        random: Random::at(fnv_1a(file)),
        said: 0,
    };
    for _ in 0..PAIRS {
        questions.pair(reader);
    }
    questions.walk(reader, 1);
    let width = 2 + questions.random.below(2);
    questions.walk(reader, width);
    let width = 4 + questions.random.below(29);
    questions.walk(reader, width);
    for _ in 0..STRAYS {
        questions.stray(reader);
    }
    questions.said
}

struct Questions<'a> {
    file: &'a [u8],
    lines: usize,
    random: Random,
    said: u64,
}

impl Questions<'_> {
    /// Mostly a number up to two past the one that is given, else such a one with
    /// 2^32 added, any number, or one of the greatest.
    fn near(&mut self, most: usize) -> usize {
        let kind = self.random.below(8);
        let number = self.random.next() as usize;
        match kind {
            0 => number,
            1 => usize::MAX - number % 3,
            2 => number % (most + 3) + (1 << 32),
            _ => number % (most + 3),
        }
    }

    fn say(&mut self, number: usize) {
        self.said = mixed(self.said, number as u64);
    }

    fn say_field(&mut self, text: Option<Text>) {
        let Text { start, length } = text.unwrap_or(Text {
            start: 0,
            length: 0,
        });
        self.say(usize::from(text.is_some()));
        self.say(start);
        self.say(length);
    }

    fn pair(&mut self, reader: &mut impl Reader) {
        let line = self.near(self.lines);
        let field = self.near(FIELDS);
        self.say_field(reader.field(line, field));
    }

    /// From the first line on so many lines at a time; the fields of some.
    fn walk(&mut self, reader: &mut impl Reader, width: usize) {
        let every = 1 + self.lines / width / READ;
        let mut here = Line {
            number: 1,
            start: 0,
        };
        let mut met = 0;
        while here.start < self.file.len() {
            self.say(here.start);
            if met % every == 0 {
                for field in 0..FIELDS {
                    self.say_field(reader.field_from(here.start, field));
                }
            }
            here = reader.line_from(here, here.number + width);
            met += 1;
        }
        self.say(here.number);
        self.say(here.start);
    }

    /// From any place, and from just before an LF.
    fn stray(&mut self, reader: &mut impl Reader) {
        let mut start = self.near(self.file.len());
        let number = self.near(self.lines);
        let line = self.near(self.lines);
        let field = self.near(FIELDS);
        if self.random.below(4) == 0 {
            let rest = self.file.get(start..).unwrap_or_default();
            let feed = rest.iter().position(|&byte| byte == b'\n');
            start += feed.unwrap_or(rest.len());
        }
        let found = reader.line_from(Line { number, start }, line);
        self.say(found.number);
        self.say(found.start);
        self.say_field(reader.field_from(start, field));
    }
}
