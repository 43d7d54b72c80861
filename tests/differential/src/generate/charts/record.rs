//! A chart record in the making, and the ways to pad its fields.

use crate::check::shape::Kind;
use crate::generate::world::Text;
use crate::random::Random;
use crate::write::chart::{self, FIRST_FIELD};

#[derive(Clone)]
pub struct Record {
    pub kind: u8,
    /// The fields from field 3 on, each in its width.
    pub fields: Vec<Text>,
}

/// The byte of kind of a record type.
pub fn byte_of(kind: Kind) -> u8 {
    let byte = (1..=5).find(|&byte| chart::kind(byte) == Some(kind));
    byte.expect("a type that a chart may have")
}

impl Record {
    /// A record whose fields are all blank.
    pub fn blank(kind: Kind) -> Record {
        let fields = chart::widths(kind).iter();
        Record {
            kind: byte_of(kind),
            fields: fields.map(|&width| vec![b' '; width]).collect(),
        }
    }

    pub fn is(&self, kind: Kind) -> bool {
        self.kind == byte_of(kind)
    }

    /// The padded field, by its number in the guideline.
    pub fn field(&mut self, number: usize) -> &mut Text {
        &mut self.fields[number - FIRST_FIELD]
    }

    /// Sets a field to what fits of a text, padded behind.
    pub fn set(&mut self, number: usize, text: impl AsRef<[u8]>) {
        let field = self.field(number);
        let length = text.as_ref().len().min(field.len());
        field.fill(b' ');
        field[..length].copy_from_slice(&text.as_ref()[..length]);
    }

    /// The same, padded at any end.
    pub fn set_anywhere(&mut self, random: &mut Random, number: usize, text: &[u8]) {
        self.set(number, text);
        let field = self.field(number);
        move_text(random, field);
    }

    pub fn bytes(&self) -> Text {
        let mut bytes = vec![self.kind];
        self.fields
            .iter()
            .for_each(|field| bytes.extend_from_slice(field));
        bytes
    }
}

/// Moves some of the blanks behind a text before it.
pub fn move_text(random: &mut Random, field: &mut [u8]) {
    let text = field.iter().rposition(|&byte| byte != b' ');
    let blanks = field.len() - text.map_or(0, |last| last + 1);
    let before = match random.below(6) {
        0 => blanks,
        1 => random.below(blanks + 1),
        2 => blanks.min(1),
        _ => 0,
    };
    field.rotate_right(before);
}

/// Bytes at the edges of those that a field may have, and others.
const BYTES: [u8; 14] = [
    33, 126, 123, 125, b'0', b'9', b'A', b'Z', b'a', b'z', b'-', b'.', b'/', b'\\',
];

/// A text of any form in this width: blank, short, as long as the field, or with
/// blanks at its ends and inside.
pub fn any_text(random: &mut Random, width: usize) -> Text {
    let mut field = vec![b' '; width];
    let (from, to) = match random.below(12) {
        0..=4 => (0, 0),
        5 => (0, width),
        6 => (width - 1, width),
        7 => (0, 1),
        8 => {
            let from = random.below(width);
            (from, width)
        }
        9 => {
            let from = random.below(width);
            (from, random.between(from, width))
        }
        _ => (0, random.below(width + 1).min(8)),
    };
    for byte in &mut field[from..to] {
        *byte = match random.below(8) {
            0 => b' ',
            1..=3 => *random.pick(&BYTES),
            _ => b'A' + random.below(26) as u8,
        };
    }
    field
}
