//! Malformed books and ledgers, in every way that document 01 names, and some
//! near misses that are well formed.

use super::calendar;
use super::world::{widths, Entry, Text, World, OPEN};
use crate::random::Random;

pub const BOOK_MOST: usize = 262_144;
pub const SLOT: usize = 38;
pub const SLOTS_MOST: usize = 100_000;

/// Bytes at the edges of those that a code may have.
const BYTES: [u8; 10] = [32, 33, 126, 127, 31, 0, 128, 255, b'0', b'a'];

pub fn damage_book(random: &mut Random, world: &World) -> Text {
    let mut entries: Vec<Text> = world.book.iter().map(Entry::bytes).collect();
    if entries.is_empty() {
        return vec![*random.pick(&[0, 1, 9, b'1', 255])];
    }
    let place = some_entry(random, world);
    match random.below(10) {
        0 => entries[place][0] = *random.pick(&[0, 9, 255, b'1', 1, 2, 3, 4, 5, 6, 7, 8]),
        1 | 2 => damage_code(random, &mut entries[place]),
        3 | 4 => damage_date(random, &mut entries[place]),
        5 => entries.insert(random.below(place + 1), entries[place].clone()),
        6 => entries.swap(place, random.below(world.book.len())),
        7 => return truncated(random, entries.concat()),
        8 => entries.insert(
            place + random.below(2),
            near_code(random, &world.book[place]),
        ),
        _ if random.percent(50) => entries.push(random_bytes(random)),
        _ => any_byte(random, &mut entries[place]),
    }
    entries.concat()
}

/// The place of an entry: every kind is as likely as the others.
fn some_entry(random: &mut Random, world: &World) -> usize {
    let kind = random.between(1, 8) as u8;
    let of_kind: Vec<usize> = (0..world.book.len())
        .filter(|&place| world.book[place].kind == kind)
        .collect();
    if of_kind.is_empty() {
        return random.below(world.book.len());
    }
    *random.pick(&of_kind)
}

/// The same code with another end, or one that differs little.
fn near_code(random: &mut Random, entry: &Entry) -> Text {
    let mut entry = entry.clone();
    let code = random.below(entry.codes.len());
    match random.below(3) {
        0 => entry.end = calendar::any_day(random),
        1 => entry.codes[code].push(b'!'),
        _ => drop(entry.codes[code].pop()),
    }
    let width = widths(entry.kind)[code];
    entry.codes[code].truncate(width);
    entry.bytes()
}

fn damage_code(random: &mut Random, entry: &mut Text) {
    let codes: usize = widths(entry[0]).iter().sum();
    damage_padded(random, &mut entry[1..=codes]);
}

/// A code all blank, with a blank before, or with a byte that it may not have:
/// anywhere, in its last byte, or in its padding.
fn damage_padded(random: &mut Random, code: &mut [u8]) {
    let last = code.iter().rposition(|&byte| byte != b' ').unwrap_or(0);
    match random.below(6) {
        0 => code.fill(b' '),
        1 => code[0] = b' ',
        2 => code[random.below(last + 1)] = b' ',
        3 => code[last] = *random.pick(&BYTES),
        4 => code[(last + 1).min(code.len() - 1)] = *random.pick(&BYTES),
        _ => code[random.below(code.len())] = *random.pick(&BYTES),
    }
}

fn damage_date(random: &mut Random, entry: &mut Text) {
    let codes: usize = widths(entry[0]).iter().sum();
    let end = entry.len() - 8;
    let place = if entry[0] == 1 && random.percent(50) {
        1 + codes
    } else {
        end
    };
    let text = match random.below(4) {
        0 => OPEN.to_string(),
        1 => "99999998".to_string(),
        2 => calendar::any_day(random).to_string(),
        _ => random.pick(&calendar::NOT_DATES).to_string(),
    };
    let text = format!("{text:.8}");
    entry[place..place + text.len()].copy_from_slice(text.as_bytes());
}

fn truncated(random: &mut Random, mut bytes: Text) -> Text {
    bytes.truncate(random.below(bytes.len() + 1));
    bytes
}

fn any_byte(random: &mut Random, bytes: &mut Text) {
    let place = random.below(bytes.len());
    bytes[place] = *random.pick(&BYTES);
}

fn random_bytes(random: &mut Random) -> Text {
    (0..random.between(1, 12))
        .map(|_| random.next() as u8)
        .collect()
}

pub fn damage_ledger(random: &mut Random, world: &World, free: usize) -> Text {
    let mut slots: Vec<Text> = world
        .ledger_bytes(free)
        .chunks(SLOT)
        .map(<[u8]>::to_vec)
        .collect();
    if slots.is_empty() {
        return vec![0; random.between(1, 80)];
    }
    let place = random.below(slots.len());
    match random.below(9) {
        0 => slots[place][0] = *random.pick(&[0, 1, 2, 255, b'1', b'0']),
        1 => slots[place][random.below(SLOT)] = *random.pick(&BYTES),
        2 => slots.insert(random.below(place + 1), slots[place].clone()),
        3 => slots.swap(place, random.below(world.live.len() + free)),
        4 => slots.insert(random.below(place + 1), vec![0; SLOT]),
        5 => return truncated(random, slots.concat()),
        6 => return [slots.concat(), random_bytes(random)].concat(),
        7 => damage_event_date(random, &mut slots[place]),
        _ => damage_padded(random, &mut slots[place][18..]),
    }
    slots.concat()
}

fn damage_event_date(random: &mut Random, slot: &mut Text) {
    let text = format!("{:.8}", random.pick(&calendar::NOT_DATES));
    slot[10..10 + text.len()].copy_from_slice(text.as_bytes());
}

/// A book of about this length: vaccines and antigens without end. Its length
/// is exact where entries of 29 and 37 bytes can make it up.
pub fn long_book(length: usize) -> Text {
    let vaccines =
        (0..29).find(|vaccines| length >= 37 * vaccines && (length - 37 * vaccines) % 29 == 0);
    let vaccines = vaccines.unwrap_or(0);
    let antigens = (length - 37 * vaccines) / 29;
    let mut bytes = Vec::with_capacity(length);
    for place in 0..vaccines + antigens {
        let kind = if place < vaccines { 1 } else { 2 };
        let code = format!("C{place:06}").into_bytes();
        let start = (kind == 1).then_some(calendar::FIRST);
        bytes.extend(
            Entry {
                kind,
                codes: vec![code],
                start,
                end: OPEN,
            }
            .bytes(),
        );
    }
    bytes
}

/// A ledger of so many slots, of which so many are live.
pub fn long_ledger(slots: usize, live: usize) -> Text {
    let mut bytes = Vec::with_capacity(slots * SLOT);
    for place in 0..live.min(slots) {
        bytes.push(1);
        bytes.extend(super::world::event(
            format!("{place:09}").as_bytes(),
            20000101,
            b"TESTV",
        ));
    }
    bytes.resize(slots * SLOT, 0);
    bytes
}
