//! What rules 12 to 15 say where a list is long: of the antigens of an II, or of
//! the IIs of a block.

use crate::case::Case;
use crate::check::shape::Kind;
use crate::check::Finding;
use std::collections::BTreeSet;
use std::fmt;

/// A list with more members than this is long.
const SHORT: usize = 16;

/// Where a rule is judged.
#[derive(Clone, Copy, PartialEq, Eq, PartialOrd, Ord)]
pub enum Where {
    /// Rule 12, in an II with a long list.
    Antigens,
    /// The same, in an II that is in no block.
    AntigensOutside,
    /// Rule 13, at an II with a long list that is not, text by text, the first's.
    Set,
    /// The same, at an II whose block's first has a long list.
    SetOfFirst,
    /// Rule 14, at an II with a long list of others before it in its block.
    Lots,
    /// Rule 15, at an II with a long list.
    Event,
}

const ALL: [Where; 6] = [
    Where::Antigens,
    Where::AntigensOutside,
    Where::Set,
    Where::SetOfFirst,
    Where::Lots,
    Where::Event,
];

/// What is counted of a case, each at most once: where a rule is judged, and
/// whether it finds something.
#[derive(Clone, Copy, PartialEq, Eq, PartialOrd, Ord)]
pub struct Row {
    place: Where,
    is_found: bool,
}

pub fn possible() -> impl Iterator<Item = Row> {
    ALL.into_iter()
        .flat_map(|place| [true, false].map(|is_found| Row { place, is_found }))
}

/// An II with its IE lines.
struct Immunization<'a> {
    /// The number of its IP, and its fields 3, 4, 6 and 8, if it is in a block.
    block: Option<(usize, [&'a [u8]; 4])>,
    antigens: Vec<[&'a [u8]; 2]>,
    /// Whether fields 4 and 5 of all its IE lines are sound.
    are_sound: bool,
    has_lot: bool,
    /// The rules that find something at it or its IE lines.
    rules: BTreeSet<u8>,
}

/// The rows of a file of good shape.
pub fn rows(case: &Case, findings: &[Finding]) -> BTreeSet<Row> {
    let all = immunizations(&case.file, findings);
    let mut rows = BTreeSet::new();
    for one in all.iter().filter(|one| one.is_long()) {
        rows.insert(one.row(Where::Antigens, 12));
        if one.block.is_none() {
            rows.insert(one.row(Where::AntigensOutside, 12));
        } else {
            rows.insert(one.row(Where::Event, 15));
        }
    }
    for block in all.chunk_by(|one, next| one.block.is_some() && one.block == next.block) {
        add_block(block, &mut rows);
    }
    rows
}

fn add_block(block: &[Immunization], rows: &mut BTreeSet<Row>) {
    let first = &block[0];
    for one in &block[1..] {
        if !first.are_sound || !one.are_sound || one.antigens == first.antigens {
            continue;
        }
        if one.is_long() {
            rows.insert(one.row(Where::Set, 13));
        }
        if first.is_long() {
            rows.insert(one.row(Where::SetOfFirst, 13));
        }
    }
    let late = block.iter().skip(SHORT + 1).filter(|one| one.has_lot);
    rows.extend(late.map(|one| one.row(Where::Lots, 14)));
}

impl Immunization<'_> {
    fn is_long(&self) -> bool {
        self.antigens.len() > SHORT
    }

    fn row(&self, place: Where, rule: u8) -> Row {
        Row {
            place,
            is_found: self.rules.contains(&rule),
        }
    }
}

fn immunizations<'a>(file: &'a [u8], findings: &[Finding]) -> Vec<Immunization<'a>> {
    let mut all: Vec<Immunization> = Vec::new();
    let mut patients = 0;
    let mut rest = findings;
    for (place, line) in file.split_inclusive(|&byte| byte == b'\n').enumerate() {
        let count = rest.partition_point(|finding| finding.line as usize <= place + 1);
        let (found, after) = rest.split_at(count);
        rest = after;
        match Kind::of_line(line) {
            Some(Kind::IP) => patients += 1,
            Some(Kind::II) => all.push(immunization(line, patients, found)),
            Some(Kind::IE) => {
                if let Some(last) = all.last_mut() {
                    add_antigen(last, line, found);
                }
            }
            _ => (),
        }
    }
    all
}

fn immunization<'a>(line: &'a [u8], patient: usize, found: &[Finding]) -> Immunization<'a> {
    let fields = fields(line);
    let named = [3, 4, 6, 8];
    let is_named = named.iter().all(|&field| is_sound(found, field));
    Immunization {
        block: is_named.then(|| (patient, named.map(|field| fields[field as usize - 1]))),
        antigens: Vec::new(),
        are_sound: true,
        has_lot: is_sound(found, 15),
        rules: found.iter().map(|finding| finding.rule).collect(),
    }
}

fn add_antigen<'a>(ii: &mut Immunization<'a>, line: &'a [u8], found: &[Finding]) {
    let fields = fields(line);
    ii.antigens.push([fields[3], fields[4]]);
    ii.are_sound &= is_sound(found, 4) && is_sound(found, 5);
    ii.rules.extend(found.iter().map(|finding| finding.rule));
}

fn fields(line: &[u8]) -> Vec<&[u8]> {
    line.split(|&byte| byte == b'|').collect()
}

/// Whether rules 1 and 2 find nothing at a field of a line with these findings.
fn is_sound(found: &[Finding], field: u8) -> bool {
    !found
        .iter()
        .any(|finding| finding.field == field && finding.rule <= 2)
}

impl fmt::Display for Row {
    fn fmt(&self, out: &mut fmt::Formatter) -> fmt::Result {
        let place = match self.place {
            Where::Antigens => "rule 12, over 16 antigens",
            Where::AntigensOutside => "rule 12, over 16 antigens, in no block",
            Where::Set => "rule 13, over 16 antigens",
            Where::SetOfFirst => "rule 13, over 16 antigens of the first II",
            Where::Lots => "rule 14, over 16 lots before",
            Where::Event => "rule 15, over 16 antigens",
        };
        let found = if self.is_found { "found" } else { "not found" };
        write!(out, "{place}: {found}")
    }
}
