//! Where lines and fields stand in a file of any shape, by document 01's
//! sentences: a line ends with LF; one CR just before it belongs to the ending;
//! bytes after the last LF are a line too; a field is a text that a pipe ends
//! within its line. What becomes of other numbers is from the words of the C
//! header.

mod questions;

pub use questions::answers;

/// The part of a file that is a field's text.
#[derive(Clone, Copy, Debug, PartialEq, Eq)]
pub struct Text {
    pub start: usize,
    pub length: usize,
}

/// A line: its number, from 1, and where it starts.
#[derive(Clone, Copy, Debug, PartialEq, Eq)]
pub struct Line {
    pub number: usize,
    pub start: usize,
}

/// What the library's three functions say of one file.
pub trait Reader {
    fn field(&mut self, line: usize, field: usize) -> Option<Text>;
    fn line_from(&mut self, from: Line, line: usize) -> Line;
    fn field_from(&mut self, start: usize, field: usize) -> Option<Text>;
}

pub struct Document<'a> {
    file: &'a [u8],
    /// Where each LF stands.
    feeds: Vec<usize>,
}

impl<'a> Document<'a> {
    pub fn of(file: &'a [u8]) -> Document<'a> {
        let feeds = (0..file.len()).filter(|&at| file[at] == b'\n').collect();
        Document { file, feeds }
    }

    /// How many LFs stand before a place.
    fn feeds_before(&self, place: usize) -> usize {
        self.feeds.partition_point(|&feed| feed < place)
    }

    /// The text of the line that starts at a place, without its ending.
    fn line_text(&self, start: usize) -> &'a [u8] {
        let from_start = self.file.get(start..).unwrap_or_default();
        match self.feeds.get(self.feeds_before(start)) {
            None => from_start,
            Some(feed) => {
                let text = &from_start[..feed - start];
                text.strip_suffix(b"\r").unwrap_or(text)
            }
        }
    }
}

impl Reader for Document<'_> {
    fn field(&mut self, line: usize, field: usize) -> Option<Text> {
        let start = match line {
            0 => return None,
            1 => 0,
            _ => self.feeds.get(line - 2)? + 1,
        };
        self.field_from(start, field)
    }

    fn line_from(&mut self, from: Line, line: usize) -> Line {
        if line <= from.number {
            return from;
        }
        let feed = self
            .feeds_before(from.start)
            .checked_add(line - from.number - 1)
            .and_then(|place| self.feeds.get(place));
        // A start past the end stays.
        let end = self.file.len().max(from.start);
        Line {
            number: line,
            start: feed.map_or(end, |feed| feed + 1),
        }
    }

    fn field_from(&mut self, start: usize, field: usize) -> Option<Text> {
        let mut texts = self.line_text(start).split(|&byte| byte == b'|');
        let mut start = start;
        for _ in 1..field {
            start += texts.next()?.len() + 1;
        }
        let length = texts.next()?.len();
        // What stands after the last pipe is no field.
        texts.next()?;
        (field > 0).then_some(Text { start, length })
    }
}
