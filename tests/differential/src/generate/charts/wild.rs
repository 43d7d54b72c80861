//! Charts whose fields hold anything: events that are equal as written and events
//! that nearly are, over and over, far apart and in turn.

use super::record::{any_text, Record};
use super::Draft;
use crate::check::shape::Kind;
use crate::generate;
use crate::generate::world::Text;
use crate::random::Random;
use crate::write::chart;

/// ULI, submission type, date and vaccine, without padding.
type Event = [Text; 4];
const EVENT_FIELDS: [usize; 4] = [3, 4, 6, 8];
const EVENT_WIDTHS: [usize; 4] = [9, 1, 8, 15];

const PREFIXES: [&str; 8] = ["10", "9", "zzz", "A1", "Z0a", "0", "AZ9", "a"];
const BATCHES: [&str; 6] = ["000001", "1", "ABCDEFGHIJ", "0123456789", "z", "aZ09"];

pub fn draft(random: &mut Random) -> Draft {
    let patients = match random.below(20) {
        0 => 0,
        1..=9 => 1,
        10..=16 => 2,
        _ => random.between(3, 5),
    };
    let events = events(random);
    let mut records = Vec::new();
    for _ in 0..patients {
        push_patient(random, &events, &mut records);
    }
    Draft {
        prefix: random.pick(&PREFIXES).as_bytes().to_vec(),
        batch: random.pick(&BATCHES).as_bytes().to_vec(),
        records,
        today: 20220930,
        book: generate::plain_book(),
        ledger: vec![0; 38 * random.below(3)],
    }
}

/// The events of a chart: some, and others near to them.
fn events(random: &mut Random) -> Vec<Event> {
    let mut events = vec![any_event(random)];
    for _ in 0..random.below(4) {
        let near = match random.percent(70) {
            true => near_event(random, &events),
            false => any_event(random),
        };
        events.push(near);
    }
    events
}

fn any_event(random: &mut Random) -> Event {
    match random.below(4) {
        0 => EVENT_WIDTHS.map(|width| chart::as_written(&any_text(random, width)).to_vec()),
        1 => ["123456789", "A", "20220901", ""].map(|text| text.into()),
        2 => ["", "", "", ""].map(|text| text.into()),
        _ => ["123456789", "A", "20220901", "TESTV"].map(|text| text.into()),
    }
}

/// An event that differs from another in one field: by a byte, by what is cut off,
/// by a blank inside, by the field being empty, or by a text that moved over from
/// its neighbour.
fn near_event(random: &mut Random, events: &[Event]) -> Event {
    let mut event = random.pick(events).clone();
    let place = random.below(event.len());
    let width = EVENT_WIDTHS[place];
    let field = &mut event[place];
    match random.below(6) {
        0 => field.clear(),
        1 => drop(field.pop()),
        2 if !field.is_empty() => {
            let at = random.below(field.len());
            field[at] = *random.pick(b"AB0123~!");
        }
        3 if field.len() > 2 => {
            let at = random.between(1, field.len() - 2);
            field[at] = b' ';
        }
        4 if field.len() < width => field.push(*random.pick(b"A0~")),
        _ => {
            let next = (place + 1) % event.len();
            event.swap(place, next);
            event[place].truncate(width);
            event[next].truncate(EVENT_WIDTHS[next]);
        }
    }
    let field = chart::as_written(&event[place]).to_vec();
    event[place] = field;
    event
}

fn push_patient(random: &mut Random, events: &[Event], records: &mut Vec<Record>) {
    let immunizations = match random.below(30) {
        0..=2 => 0,
        3..=20 => random.between(1, 4),
        21..=28 => random.between(5, 9),
        _ => random.between(10, 40),
    };
    let not_immunized = match random.percent(30) {
        true => random.between(1, 3),
        false => usize::from(immunizations == 0),
    };
    records.push(any_record(random, Kind::IP));
    let turn = random.below(4);
    for number in 0..immunizations {
        let event = match turn {
            0 => &events[number % events.len()],
            1 if number % 5 > 0 => &events[number % 5 % events.len()],
            _ => random.pick(events),
        };
        push_immunization(random, event, records);
    }
    for _ in 0..not_immunized {
        records.push(any_record(random, Kind::IN));
        for _ in 0..random.between(1, 3) {
            records.push(any_record(random, Kind::IA));
        }
    }
}

fn push_immunization(random: &mut Random, event: &Event, records: &mut Vec<Record>) {
    let mut record = any_record(random, Kind::II);
    for (number, text) in EVENT_FIELDS.into_iter().zip(event) {
        record.set_anywhere(random, number, text);
    }
    records.push(record);
    let antigens = match random.below(60) {
        0 => random.between(10, 60),
        1..=20 => random.between(2, 3),
        _ => 1,
    };
    for _ in 0..antigens {
        records.push(any_record(random, Kind::IE));
    }
}

/// Fields of any form; a comment mostly blank or short.
fn any_record(random: &mut Random, kind: Kind) -> Record {
    let mut record = Record::blank(kind);
    for (field, &width) in record.fields.iter_mut().zip(chart::widths(kind)) {
        let length = match width > 100 && random.percent(80) {
            true => random.below(20) + 1,
            false => width,
        };
        field[..length].copy_from_slice(&any_text(random, length));
    }
    record
}
