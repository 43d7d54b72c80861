//! What may go from a case of the check: lines, entries and slots, and the texts
//! of fields.

use super::{places, runs};
use crate::case::Case;
use crate::check::book;
use crate::check::ledger::SLOT_WIDTH;
use std::ops::Range;

/// The longest file whose fields are emptied one by one.
const MOST_FOR_FIELDS: usize = 20_000;

#[derive(Clone, Copy)]
enum Area {
    File,
    Book,
    Ledger,
}

/// Bytes of an area that may go.
pub struct Cut {
    area: Area,
    from: usize,
    to: usize,
}

impl Cut {
    /// The case without these bytes; a file with its lines numbered anew, and as
    /// they are.
    pub fn applied(&self, case: &Case) -> Vec<Case> {
        let mut smaller = case.clone();
        match self.area {
            Area::Book => drop(smaller.book.drain(self.from..self.to)),
            Area::Ledger => drop(smaller.ledger.drain(self.from..self.to)),
            Area::File => {
                smaller.file.drain(self.from..self.to);
                let file = renumbered(&smaller.file);
                return vec![
                    Case {
                        file,
                        ..smaller.clone()
                    },
                    smaller,
                ];
            }
        }
        vec![smaller]
    }
}

/// The file with the place of each numbered record in its field 2.
fn renumbered(file: &[u8]) -> Vec<u8> {
    let mut place = 0;
    let mut bytes = Vec::with_capacity(file.len());
    for line in file.split_inclusive(|&byte| byte == b'\n') {
        let kind = line.get(..3).unwrap_or_default();
        let second = line.get(3..).unwrap_or_default();
        let end = second.iter().position(|&byte| byte == b'|');
        match (
            [b"IP|", b"II|", b"IE|", b"IN|", b"IA|"]
                .iter()
                .any(|name| kind == *name),
            end,
        ) {
            (true, Some(end)) => {
                place += 1;
                bytes.extend_from_slice(kind);
                bytes.extend_from_slice(place.to_string().as_bytes());
                bytes.extend_from_slice(&second[end..]);
            }
            _ => bytes.extend_from_slice(line),
        }
    }
    bytes
}

pub fn cuts(case: &Case) -> Vec<Cut> {
    let mut cuts = of(Area::Ledger, &slots(&case.ledger));
    cuts.extend(of(Area::Book, &entries(&case.book)));
    cuts.extend(of(Area::File, &lines(&case.file)));
    if case.file.len() <= MOST_FOR_FIELDS {
        cuts.extend(fields(&case.file));
    }
    cuts
}

fn of(area: Area, places: &[usize]) -> Vec<Cut> {
    let cut = |Range { start, end }| Cut {
        area,
        from: start,
        to: end,
    };
    runs(places).into_iter().map(cut).collect()
}

/// Where the lines of a file begin and the last ends.
fn lines(file: &[u8]) -> Vec<usize> {
    places(file.split_inclusive(|&byte| byte == b'\n').map(<[u8]>::len))
}

fn slots(ledger: &[u8]) -> Vec<usize> {
    places(ledger.chunks(SLOT_WIDTH).map(<[u8]>::len))
}

/// The entries of a book; what cannot be read is one part.
fn entries(bytes: &[u8]) -> Vec<usize> {
    let mut places = vec![0];
    let mut place = 0;
    while let Some(&kind) = bytes.get(place) {
        place += book::entry_width(kind).unwrap_or(bytes.len());
        place = place.min(bytes.len());
        places.push(place);
    }
    places
}

/// The fields that are not empty.
fn fields(file: &[u8]) -> Vec<Cut> {
    let mut cuts = Vec::new();
    let mut from = 0;
    for (place, &byte) in file.iter().enumerate() {
        if byte == b'|' && place > from {
            cuts.push(Cut {
                area: Area::File,
                from,
                to: place,
            });
        }
        if byte == b'|' || byte == b'\n' {
            from = place + 1;
        }
    }
    cuts
}
