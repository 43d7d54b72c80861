//! Charts of records in which the rules find little or nothing, the lots of an
//! event scattered.

use super::record::{move_text, Record};
use super::Draft;
use crate::check::shape::Kind;
use crate::generate::submission::{self, get, is, Line};
use crate::generate::world::{Size, World};
use crate::random::Random;
use crate::write::chart::FIRST_FIELD;

/// Small, with more lots than files of the check have.
const LOTS: Size = Size {
    patients: 2,
    lots: 5,
    ..Size::SMALL
};

pub fn draft(random: &mut Random) -> Draft {
    let size = match random.below(1000) {
        0 => Size::MANY_PATIENTS,
        1 => Size::MANY_BLOCKS,
        2 => Size::MANY_LOTS,
        3..=5 => Size::MANY_ANTIGENS,
        _ => LOTS,
    };
    let world = World::new(random, size);
    let lines = submission::submission(random, &world, size);
    let header = lines.iter().find(|line| is(line, "IH"));
    let (prefix, batch) = header.map_or((&[][..], &[][..]), |it| (get(it, 2), get(it, 3)));
    let mut records: Vec<Record> = lines.iter().filter_map(record).collect();
    if random.percent(70) {
        records = scattered(random, records);
    }
    if random.percent(70) {
        let fields = records.iter_mut().flat_map(|it| it.fields.iter_mut());
        fields.for_each(|field| move_text(random, field));
    }
    let free = lines.iter().filter(|line| is(line, "II")).count();
    Draft {
        prefix: prefix.to_vec(),
        batch: batch.to_vec(),
        records,
        today: world.today,
        book: world.book_bytes(),
        ledger: world.ledger_bytes(free),
    }
}

/// The chart record of a line, if it has one. Texts lose what does not fit.
fn record(line: &Line) -> Option<Record> {
    let kinds = [Kind::IP, Kind::II, Kind::IE, Kind::IN, Kind::IA];
    let kind = kinds
        .into_iter()
        .find(|kind| is(line, &format!("{kind:?}")))?;
    let mut record = Record::blank(kind);
    for number in FIRST_FIELD..=kind.field_count() {
        record.set(number, get(line, number));
    }
    Some(record)
}

/// The immunizations of each patient in another order; sometimes under two records
/// of the patient.
fn scattered(random: &mut Random, records: Vec<Record>) -> Vec<Record> {
    let mut scattered = Vec::new();
    let mut rest = &records[..];
    while let [patient, behind @ ..] = rest {
        let immunizations = length(behind, |it| it.is(Kind::II) || it.is(Kind::IE));
        let others = length(&behind[immunizations..], |it| !it.is(Kind::IP));
        let mut groups = groups(&behind[..immunizations]);
        put_in_order(random, &mut groups);
        let second = match groups.len() > 1 && random.percent(8) {
            true => random.between(1, groups.len() - 1),
            false => 0,
        };
        for (place, group) in groups.into_iter().enumerate() {
            if place == 0 || place == second {
                scattered.push(patient.clone());
            }
            scattered.extend(group);
        }
        if immunizations == 0 {
            scattered.push(patient.clone());
        }
        scattered.extend_from_slice(&behind[immunizations..immunizations + others]);
        rest = &behind[immunizations + others..];
    }
    scattered
}

fn length(records: &[Record], belongs: impl Fn(&Record) -> bool) -> usize {
    let end = records.iter().position(|record| !belongs(record));
    end.unwrap_or(records.len())
}

/// Each II with its IE records.
fn groups(records: &[Record]) -> Vec<Vec<Record>> {
    let mut groups: Vec<Vec<Record>> = Vec::new();
    for record in records {
        match groups.last_mut() {
            Some(group) if record.is(Kind::IE) => group.push(record.clone()),
            _ => groups.push(vec![record.clone()]),
        }
    }
    groups
}

/// Any order; every second one first, so that lots stand in turn; or backwards.
fn put_in_order<T: Clone>(random: &mut Random, groups: &mut Vec<T>) {
    match random.below(4) {
        0 => {
            let evens = groups.iter().step_by(2);
            let odds = groups.iter().skip(1).step_by(2);
            *groups = evens.chain(odds).cloned().collect();
        }
        1 => groups.reverse(),
        _ => random.shuffle(groups),
    }
}
