//! Malformed charts, prefixes and batch numbers, in every way that document 02
//! names, and some near misses that are well formed.

use super::record::Record;
use super::Draft;
use crate::check::shape::Kind;
use crate::generate::world::Text;
use crate::random::Random;
use crate::write::chart;

/// Bytes that no field may have.
const BYTES: [u8; 14] = [
    b'|', b'|', b'|', 31, 31, 127, 128, 128, 255, 10, 13, 0, 9, 1,
];

/// Bytes that are no kind, and such that are.
const KINDS: [u8; 16] = [
    0, 6, 255, 7, 128, 32, b'0', b'1', b'2', b'3', b'4', b'5', b'I', 10, 1, 4,
];

const PREFIXES: [&[u8]; 14] = [
    b"", b" ", b"ABCD", b"10 ", b" 10", b"1 0", b"1-2", b"1|2", b"A\n", b"\xe9", b"@[`", b"{",
    b"/:", b"10\0",
];
const BATCHES: [&[u8]; 14] = [
    b"",
    b" ",
    b"ABCDEFGHIJK",
    b"000001 ",
    b" 1",
    b"00 01",
    b"1_2",
    b"0|1",
    b"1\n",
    b"\xff1",
    b"@1",
    b"0123456789 ",
    b"/:[`{",
    b"1\0",
];

/// The bytes of a chart with a fault, or with some.
pub fn chart(random: &mut Random, draft: &mut Draft) -> Text {
    let faults = if random.percent(12) { 2 } else { 1 };
    for _ in 0..faults {
        damage(random, draft);
    }
    match random.below(7) {
        0 => cut(random, draft),
        1 => with_more(random, draft),
        _ => draft.chart(),
    }
}

fn damage(random: &mut Random, draft: &mut Draft) {
    match random.below(10) {
        0 => draft.prefix = random.pick(&PREFIXES).to_vec(),
        1 => draft.batch = random.pick(&BATCHES).to_vec(),
        2 => damage_kind(random, &mut draft.records),
        3..=5 => damage_byte(random, &mut draft.records),
        _ => damage_order(random, &mut draft.records),
    }
}

fn damage_kind(random: &mut Random, records: &mut [Record]) {
    if !records.is_empty() {
        let place = random.below(records.len());
        records[place].kind = *random.pick(&KINDS);
    }
}

/// A byte at either end of a field, or anywhere in it.
fn damage_byte(random: &mut Random, records: &mut [Record]) {
    if records.is_empty() {
        return;
    }
    let record = random.below(records.len());
    let fields = &mut records[record].fields;
    let field = random.below(fields.len());
    let field = &mut fields[field];
    let place = match random.below(3) {
        0 => 0,
        1 => field.len() - 1,
        _ => random.below(field.len()),
    };
    field[place] = *random.pick(&BYTES);
}

/// Records that are dropped, doubled, moved or put in.
fn damage_order(random: &mut Random, records: &mut Vec<Record>) {
    let place = random.below(records.len() + 1);
    let kind = *random.pick(&[Kind::IP, Kind::II, Kind::IE, Kind::IN, Kind::IA]);
    match random.below(7) {
        0 | 1 if place < records.len() => drop(records.remove(place)),
        2 if place < records.len() => records.insert(place, records[place].clone()),
        3 if place < records.len() => {
            let moved = records.remove(place);
            records.insert(random.below(records.len() + 1), moved);
        }
        4 => records.push(Record::blank(kind)),
        5 => records.insert(0, Record::blank(kind)),
        _ => records.insert(place, Record::blank(kind)),
    }
}

/// Cut anywhere, or just behind or before a record's end, or behind a byte of kind.
fn cut(random: &mut Random, draft: &Draft) -> Text {
    let mut chart = draft.chart();
    let records = random.below(draft.records.len() + 1);
    let before = draft.records[..records].iter();
    let end: usize = before.map(|record| record.bytes().len()).sum();
    let length = match random.below(4) {
        0 => end + 1,
        1 => end.saturating_sub(1),
        2 => end + random.below(30),
        _ => random.below(chart.len() + 1),
    };
    chart.truncate(length);
    chart
}

/// With bytes behind the last record.
fn with_more(random: &mut Random, draft: &Draft) -> Text {
    let mut chart = draft.chart();
    match random.below(3) {
        0 => chart.push(*random.pick(&KINDS)),
        1 => {
            let kind = random.between(1, 5) as u8;
            let length = chart::kind(kind).map_or(0, chart::length);
            chart.push(kind);
            chart.resize(chart.len() + random.below(length), b' ');
        }
        _ => chart.extend([b' ', b'\n']),
    }
    chart
}
