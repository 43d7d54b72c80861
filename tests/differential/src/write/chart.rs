//! Chart records: one byte of kind, then the fields from field 3 on, each padded
//! with blanks to its width.

use crate::check::shape::Kind;
use std::ops::Range;

/// The lengths of fields 3 to the last in document 000's layouts, a dosage of nine
/// bytes.
const IP: [usize; 25] = [
    9, 2, 15, 4, 15, 50, 50, 50, 4, 35, 35, 35, 35, 60, 3, 2, 12, 2, 2, 3, 2, 1, 8, 1, 1,
];
const II: [usize; 20] = [
    9, 1, 1, 8, 1, 15, 4, 3, 2, 9, 4, 3, 20, 4, 5, 3, 2, 3, 2, 1600,
];
const IE: [usize; 3] = [9, 15, 2];
const IN: [usize; 6] = [9, 1, 8, 3, 4, 2];
const IA: [usize; 2] = [9, 15];

/// The first field that a chart record has.
pub const FIRST_FIELD: usize = 3;

/// The record type of a byte of kind.
pub fn kind(byte: u8) -> Option<Kind> {
    match byte {
        1 => Some(Kind::IP),
        2 => Some(Kind::II),
        3 => Some(Kind::IE),
        4 => Some(Kind::IN),
        5 => Some(Kind::IA),
        _ => None,
    }
}

/// The widths of the fields of a record type, none for one that no chart has.
pub const fn widths(kind: Kind) -> &'static [usize] {
    match kind {
        Kind::IP => &IP,
        Kind::II => &II,
        Kind::IE => &IE,
        Kind::IN => &IN,
        Kind::IA => &IA,
        Kind::IV | Kind::IH | Kind::IF => &[],
    }
}

/// The bytes of a record behind its byte of kind.
pub const fn length(kind: Kind) -> usize {
    let widths = widths(kind);
    let (mut sum, mut place) = (0, 0);
    while place < widths.len() {
        sum += widths[place];
        place += 1;
    }
    sum
}

#[derive(Clone, Copy)]
pub struct Record<'a> {
    pub kind: Kind,
    /// What stands behind the byte of kind, up to its last byte that is no blank:
    /// most of a record is blanks behind that.
    bytes: &'a [u8],
}

/// Why a call is refused: one reason of perhaps several.
#[derive(Clone, Copy, Debug, PartialEq, Eq, PartialOrd, Ord)]
pub enum Fault {
    Prefix,
    Batch,
    /// A byte of kind that names none.
    Kind(u8),
    /// The chart ends in a record of this type, so many bytes behind its kind.
    Cut(Kind, usize),
    /// A record of this type has a byte that no field may have.
    Byte(Kind, u8),
    /// A type that may not follow the one before it; none is the chart's end.
    Order(Option<Kind>, Option<Kind>),
}

impl<'a> Record<'a> {
    /// The type and the pipe behind it.
    pub fn type_name(&self) -> &'static [u8] {
        match self.kind {
            Kind::IP => b"IP|",
            Kind::II => b"II|",
            Kind::IE => b"IE|",
            Kind::IN => b"IN|",
            _ => b"IA|",
        }
    }

    /// The fields as they are written.
    pub fn fields(&self) -> impl Iterator<Item = &'a [u8]> {
        let mut rest = self.bytes;
        widths(self.kind).iter().map(move |&width| {
            let (field, behind) = rest.split_at(width.min(rest.len()));
            rest = behind;
            as_written(field)
        })
    }

    /// The field at a place behind the byte of kind, as it is written.
    pub fn field_at(&self, place: Range<usize>) -> &'a [u8] {
        let end = place.end.min(self.bytes.len());
        as_written(&self.bytes[place.start.min(end)..end])
    }

    /// The bytes that its fields have at most when they are written.
    pub fn most(&self) -> usize {
        self.bytes.len()
    }
}

/// Every record of a chart, or why it is refused.
pub fn records(chart: &[u8]) -> Result<Vec<Record<'_>>, Fault> {
    let mut records = Vec::new();
    let mut before = None;
    let mut rest = chart;
    while let [byte, behind @ ..] = rest {
        let kind = kind(*byte).ok_or(Fault::Kind(*byte))?;
        if !may_follow(before, kind) {
            return Err(Fault::Order(before, Some(kind)));
        }
        let Some((bytes, next)) = behind.split_at_checked(length(kind)) else {
            return Err(Fault::Cut(kind, behind.len()));
        };
        if !are_plain(bytes) {
            return Err(Fault::Byte(kind, first_odd(bytes)));
        }
        let bytes = without_blanks_behind(bytes);
        records.push(Record { kind, bytes });
        before = Some(kind);
        rest = next;
    }
    if !may_end(before) {
        return Err(Fault::Order(before, None));
    }
    Ok(records)
}

/// The types of a well-formed chart's records, and their fields in their widths.
pub fn padded(chart: &[u8]) -> Vec<(Kind, Vec<&[u8]>)> {
    let mut records = Vec::new();
    let mut rest = chart;
    while let [byte, behind @ ..] = rest {
        let kind = kind(*byte).expect("a chart that is well formed");
        rest = behind;
        let fields = widths(kind).iter().map(|&width| {
            let (field, next) = rest.split_at(width);
            rest = next;
            field
        });
        records.push((kind, fields.collect()));
    }
    records
}

/// Document 01's order between IH and IF.
fn may_follow(before: Option<Kind>, kind: Kind) -> bool {
    use Kind::*;
    match kind {
        IP => matches!(before, None | Some(IE | IA)),
        II => matches!(before, Some(IP | IE)),
        IE => matches!(before, Some(II | IE)),
        IN => matches!(before, Some(IP | IE | IA)),
        IA => matches!(before, Some(IN | IA)),
        IV | IH | IF => false,
    }
}

fn may_end(before: Option<Kind>) -> bool {
    matches!(before, None | Some(Kind::IE | Kind::IA))
}

fn is_plain(byte: u8) -> bool {
    matches!(byte, 32..=126) && byte != b'|'
}

/// Looks at every byte, so that the compiler may take many at a time.
fn are_plain(bytes: &[u8]) -> bool {
    bytes
        .iter()
        .fold(0, |odd, &byte| odd | u8::from(!is_plain(byte)))
        == 0
}

fn first_odd(bytes: &[u8]) -> u8 {
    let odd = bytes.iter().copied().find(|&byte| !is_plain(byte));
    odd.unwrap_or_default()
}

/// Blanks that are dropped at a time.
const MANY: usize = 16;

/// A field without the blanks at its ends.
pub fn as_written(field: &[u8]) -> &[u8] {
    let field = without_blanks_behind(field);
    let start = field.iter().position(|&byte| byte != b' ');
    &field[start.unwrap_or(field.len())..]
}

fn without_blanks_behind(bytes: &[u8]) -> &[u8] {
    let mut end = bytes.len();
    while end >= MANY && bytes[end - MANY..end] == [b' '; MANY] {
        end -= MANY;
    }
    while end > 0 && bytes[end - 1] == b' ' {
        end -= 1;
    }
    &bytes[..end]
}
