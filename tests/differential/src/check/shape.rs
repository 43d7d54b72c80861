//! The shape of a submission: its lines, their records, and their order.

use super::words;

/// The eight record types.
#[derive(Clone, Copy, Debug, PartialEq, Eq, PartialOrd, Ord, Hash)]
pub enum Kind {
    IV,
    IH,
    IP,
    II,
    IE,
    IN,
    IA,
    IF,
}

use Kind::*;

impl Kind {
    pub const ALL: [Kind; 8] = [IV, IH, IP, II, IE, IN, IA, IF];

    /// The type that the whole first field of a line names.
    pub fn of_line(line: &[u8]) -> Option<Kind> {
        let [b'I', second, b'|', ..] = line else {
            return None;
        };
        match second {
            b'V' => Some(IV),
            b'H' => Some(IH),
            b'P' => Some(IP),
            b'I' => Some(II),
            b'E' => Some(IE),
            b'N' => Some(IN),
            b'A' => Some(IA),
            b'F' => Some(IF),
            _ => None,
        }
    }

    pub fn field_count(self) -> usize {
        match self {
            IV => 2,
            IH => 3,
            IP => 27,
            II => 22,
            IE => 5,
            IN => 8,
            IA => 4,
            IF => 3,
        }
    }

    /// Whether a record of this type may stand after the one before it, which
    /// is none at the start of the file.
    fn may_follow(self, before: Option<Kind>) -> bool {
        match self {
            IV => before.is_none(),
            IH => before == Some(IV),
            IP | IF => matches!(before, Some(IH | IE | IA)),
            II => matches!(before, Some(IP | IE)),
            IE => matches!(before, Some(II | IE)),
            IN => matches!(before, Some(IP | IE | IA)),
            IA => matches!(before, Some(IN | IA)),
        }
    }
}

/// The first line with a fault, and its lowest cause.
#[derive(Clone, Copy, Debug, PartialEq, Eq)]
pub struct Fault {
    pub line: u32,
    pub cause: u32,
}

/// More places than the longest record has fields.
const PLACES: usize = 32;

/// The records of a file, one after the other: each line is scanned once.
pub struct Records<'a> {
    file: &'a [u8],
    /// Where the next line starts.
    next: usize,
    /// The number of the line read last, and its type.
    line: u32,
    kind: Option<Kind>,
    /// Where the fields of that line start, and where the one after the last
    /// would; of no use where it has more pipes than any record.
    starts: [u32; PLACES],
    pipes: usize,
}

/// A line of the file that is a record in its place.
#[derive(Clone, Copy)]
pub struct Record<'r> {
    pub line: u32,
    pub kind: Kind,
    file: &'r [u8],
    starts: &'r [u32; PLACES],
}

impl<'r> Record<'r> {
    /// The text of a field, counted from 1.
    #[inline]
    pub fn text(&self, field: u8) -> &'r [u8] {
        let field = usize::from(field);
        let (start, next) = (self.starts[field - 1], self.starts[field]);
        &self.file[start as usize..next as usize - 1]
    }

    #[inline]
    pub fn is_empty(&self, field: u8) -> bool {
        let field = usize::from(field);
        self.starts[field] - self.starts[field - 1] == 1
    }
}

impl<'a> Records<'a> {
    pub fn of(file: &'a [u8]) -> Records<'a> {
        Records {
            file,
            next: 0,
            line: 0,
            kind: None,
            starts: [0; PLACES],
            pipes: 0,
        }
    }

    /// The next record; none at the end of a file of good shape.
    pub fn read_next(&mut self) -> Result<Option<Record<'_>>, Fault> {
        self.line += 1;
        let line = self.line;
        if self.next == self.file.len() {
            return match self.kind {
                Some(IF) => Ok(None),
                _ => Err(Fault { line, cause: 7 }),
            };
        }
        let kind = self.read_line().map_err(|cause| Fault { line, cause })?;
        self.kind = Some(kind);
        Ok(Some(Record {
            line,
            kind,
            file: self.file,
            starts: &self.starts,
        }))
    }

    /// The type of the next line, or its lowest cause.
    fn read_line(&mut self) -> Result<Kind, u32> {
        let start = self.next;
        let end = self.scan();
        self.next = match self.file[end..] {
            [b'\n', ..] => end + 1,
            [b'\r', b'\n', ..] => end + 2,
            ref rest if rest.contains(&b'\n') => return Err(2),
            _ => return Err(1),
        };
        if end == start || self.file[end - 1] != b'|' {
            return Err(3);
        }
        let kind = Kind::of_line(&self.file[start..]).ok_or(4u32)?;
        if self.pipes != kind.field_count() {
            return Err(5);
        }
        if !kind.may_follow(self.kind) {
            return Err(6);
        }
        Ok(kind)
    }

    /// Marks the fields of the next line; gives its first byte outside 32..126,
    /// or the end of the file.
    fn scan(&mut self) -> usize {
        let mut at = self.next;
        self.starts[0] = at as u32;
        let mut marks = Marks {
            starts: &mut self.starts,
            pipes: 0,
        };
        let (words, rest) = self.file[at..].as_chunks();
        for bytes in words {
            let word = u64::from_le_bytes(*bytes);
            let outside = words::flags_outside(word);
            let pipes = words::flags_of(word, b'|');
            if outside != 0 {
                let before = (outside - 1) & !outside;
                marks.add(at, pipes & before);
                self.pipes = marks.pipes;
                return at + outside.trailing_zeros() as usize / 8;
            }
            marks.add(at, pipes);
            at += 8;
        }
        let rest = rest.iter().take_while(|byte| (32..=126).contains(*byte));
        for &byte in rest {
            if byte == b'|' {
                marks.add(at, words::FIRST);
            }
            at += 1;
        }
        self.pipes = marks.pipes;
        at
    }
}

struct Marks<'r> {
    starts: &'r mut [u32; PLACES],
    pipes: usize,
}

impl Marks<'_> {
    /// A field starts after each pipe, of which the bytes from a place on have
    /// these flags.
    #[inline]
    fn add(&mut self, from: usize, mut flags: u64) {
        while flags != 0 {
            self.pipes += 1;
            self.starts[self.pipes % PLACES] = from as u32 + flags.trailing_zeros() / 8 + 1;
            flags &= flags - 1;
        }
    }
}
