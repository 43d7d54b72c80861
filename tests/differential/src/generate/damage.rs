//! Damage to a draft, by field and by rule. What is damaged may still be valid:
//! what a case has to say is for the check to find out.

use super::calendar;
use super::submission::{antigen_count, get, is, is_numbered, relax, renumber, set, Line};
use super::submission::{NEARLY_HISTORICAL, PLAIN_METHODS, PLAIN_SITES};
use super::world::{event, Entry, Text, World};
use crate::random::Random;

pub struct Draft {
    pub world: World,
    pub lines: Vec<Line>,
}

/// The fields of a record type that rules judge.
fn judged_fields(line: &Line) -> &'static [usize] {
    match get(line, 1) {
        b"IV" => &[2],
        b"IH" | b"IF" => &[2, 3],
        b"IP" => &[2, 3, 25],
        b"II" => &[2, 3, 4, 5, 6, 8, 9, 10, 11, 12, 13, 14, 15, 18, 19, 20],
        b"IE" => &[2, 3, 4, 5],
        b"IN" => &[2, 3, 4, 5, 6, 7, 8],
        _ => &[2, 3, 4],
    }
}

/// The kind of book entry whose code a field holds.
fn code_kind(line: &Line, field: usize) -> Option<u8> {
    match (get(line, 1), field) {
        (b"II", 8) => Some(1),
        (b"IE" | b"IA", 4) => Some(2),
        (b"II", 11) => Some(3),
        (b"II", 14) => Some(4),
        (b"II", 13) => Some(5),
        (b"IN", 6) => Some(6),
        _ => None,
    }
}

/// Texts at the edges of the forms of a field, sound and unsound.
fn edges(line: &Line, field: usize) -> &'static [&'static str] {
    match (get(line, 1), field) {
        (b"IV", _) => &[
            "7.2", "7.20", " 7.2", "7.1", "07.2", "7,2", "7.2 ", "v7.2", "7", "72",
        ],
        (b"IH", 2) => &["ABC", "ABCD", "1", "A-", "zZ9", "   ", "A B", "0000"],
        (b"IH", _) => &[
            "ABCDEFGHIJ",
            "ABCDEFGHIJK",
            "0",
            "A_1",
            " 1",
            "1 ",
            "0123456789",
        ],
        (b"IF", 2) => &[
            "0000000000",
            "00000000000",
            "1234567890",
            "12345678901",
            "1 ",
            "-1",
            "1.0",
            "x",
        ],
        (b"IF", _) => &[" ", "anything at all", "0"],
        (b"II", 4) | (b"IN", 4) => &[
            "A", "C", "D", "a", "B", "AA", "AC", " A", "A ", "E", "@", "d",
        ],
        (b"II", 5) => &["H", "h", "HH", " ", " H", "H ", "X", "I", "G"],
        (b"II", 8) | (b"IE" | b"IA", 4) => &CODES,
        (b"II", 9) => &[
            "MO", "NO", "mo", "LA", "la", "LAX", "ABCD", "ABCDE", "L A", "L1", " LA", "LA ", "M",
            "UNK",
        ],
        (b"II", 10) => &[
            "PO", "IN", "po", "IM", "im", "INX", "ABC", "ABCD", "I", "I1", " IM", "P-O", "UNK",
            "INF",
        ],
        (b"II", 11) => &[
            "50", "5", " 5", "5 ", "05", "005", "  ", " ", "0", "00", " 0", "2", " 2", "a", "5a",
            "-5", "0 5",
        ],
        (b"II", 12) => &DOSAGES,
        (b"II", 13) => &[
            "ML", "ml", "M", "ABCD", "ABCDE", "M L", "M1", "UNIT", "UNITS", " ML", "m.",
        ],
        (b"II", 14) => &[
            "GSK", "gsk", "G", "ABC", "ABCD", "G K", "G1", "GSKX", " GS", "UNK",
        ],
        (b"II", 15) => &LOTS,
        (b"II", 18) => &["AB", "ab", "BC", "ABB", " ", "A"],
        (b"II", 19 | 20) => &["CA", " ", "NA", "AB"],
        (b"IE", 5) => &[
            "1", "01", "0", "00", "99", "100", "001", "2", "1 ", " 1", "a", "1.", "-1", "10",
        ],
        (b"IN", 6) => &["AR", "ar", "A", "ABC", "ABCD", "A1", "A R", " A", "UNK"],
        (b"IN", 7) => &[
            "0", "9999", "99999", "0000", "00000", "1a", "-1", " 1", "1 ",
        ],
        (b"IN", 8) => &["K", "05", "005", "K ", " K", "zz", "Z-", " ", "  ", "12"],
        (_, 2) => &[
            "0", "00000", "000000", "99999", "100000", "1", "00001", "000001", " 1", "1 ", "+1",
            "1a", "-1",
        ],
        (_, 3) => &[
            "123456789",
            "12345678",
            "1234567890",
            "12345678a",
            "12345 789",
            "000000000",
            "-12345678",
            ":23456789",
        ],
        _ => &[],
    }
}

const CODES: [&str; 16] = [
    "A",
    "AAAAAAAAAAAAAAAAAAAA",
    "AAAAAAAAAAAAAAAAAAAAA",
    "TESTV",
    "testv",
    "TESTV ",
    " TESTV",
    "TEST V",
    "TESTA",
    "!",
    "~",
    " ",
    "F",
    "FL",
    "FLU",
    "FLUX",
];
const DOSAGES: [&str; 28] = [
    "0.01",
    "999999.99",
    "0.00",
    "1000000",
    ".5",
    "1.",
    "1.123",
    "0",
    "0.0",
    "00",
    "000000.01",
    "0000000.1",
    "1..2",
    "1.2.3",
    "1,5",
    " 1",
    "1 ",
    "1. 5",
    "-1",
    "999999",
    "999999.9",
    "000000",
    "000000.00",
    "0.1",
    "1e3",
    "1.5a",
    ".",
    "0.10",
];
const LOTS: [&str; 17] = [
    "L1",
    "L2",
    "1",
    "01",
    "-",
    "AAAAAAAAAAAAAAAAAAAA",
    "AAAAAAAAAAAAAAAAAAAAA",
    "L 1",
    "L_1",
    "L.1",
    " L1",
    "L1 ",
    "l1",
    "0",
    "L/1",
    "L:1",
    "@",
];

/// A field that rules judge gets another text.
pub fn damage_field(random: &mut Random, draft: &mut Draft) {
    let kind = *random.pick(&[
        "IV", "IH", "IP", "IP", "II", "II", "II", "II", "IE", "IE", "IN", "IN", "IA", "IF",
    ]);
    if let Some(place) = place_of(random, draft, kind) {
        damage_line(random, draft, place);
    }
}

/// Several fields of lines that stand near to one another.
pub fn damage_fields_nearby(random: &mut Random, draft: &mut Draft, fields: usize) {
    let centre = random.below(draft.lines.len());
    for _ in 0..fields {
        let place = random.between(
            centre.saturating_sub(1),
            (centre + 2).min(draft.lines.len() - 1),
        );
        damage_line(random, draft, place);
    }
}

fn damage_line(random: &mut Random, draft: &mut Draft, place: usize) {
    let field = *random.pick(judged_fields(&draft.lines[place]));
    let text = other_text(random, draft, place, field);
    set(&mut draft.lines[place], field, text);
}

fn other_text(random: &mut Random, draft: &Draft, place: usize, field: usize) -> Text {
    let line = &draft.lines[place];
    let known = edges(line, field);
    match random.below(10) {
        0 | 1 => Vec::new(),
        2 => altered(random, get(line, field)),
        3 => borrowed(random, draft, place, field),
        _ if is_date_field(line, field) => date_text(random, draft),
        4 if field == 2 && is_numbered(line) => near_number(random, get(line, 2)),
        _ if known.is_empty() => altered(random, get(line, field)),
        _ => random.pick(known).as_bytes().to_vec(),
    }
}

fn is_date_field(line: &Line, field: usize) -> bool {
    matches!((get(line, 1), field), (b"IP", 25) | (b"II", 6) | (b"IN", 5))
}

fn date_text(random: &mut Random, draft: &Draft) -> Text {
    let day = *random.pick(&draft.world.days);
    let text = match random.below(8) {
        0 | 1 => random.pick(&calendar::NOT_DATES).to_string(),
        2 => calendar::day_after(draft.world.today).to_string(),
        3 => draft.world.today.to_string(),
        4 => calendar::day_before(day).to_string(),
        5 => calendar::day_after(day).to_string(),
        6 => day.to_string(),
        _ => calendar::any_day(random).to_string(),
    };
    text.into_bytes()
}

fn near_number(random: &mut Random, text: &[u8]) -> Text {
    let number: usize = String::from_utf8_lossy(text).parse().unwrap_or(1);
    let near = *random.pick(&[number + 1, number.saturating_sub(1), number * 10, number]);
    let width = random.between(1, 6);
    format!("{near:0width$}").into_bytes()
}

/// A text changed at one place, often by a byte next to a class of bytes.
fn altered(random: &mut Random, text: &[u8]) -> Text {
    let mut text = text.to_vec();
    let byte = *random.pick(b"/09:@AZ[`az{ ~!-.1M");
    let place = random.below(text.len() + 1);
    match random.below(4) {
        0 => text.insert(place, byte),
        1 if place < text.len() => text[place] = byte,
        2 if place < text.len() => drop(text.remove(place)),
        _ => text.push(byte),
    }
    text
}

/// The text of the same field on a line of the same type, or of any field.
fn borrowed(random: &mut Random, draft: &Draft, place: usize, field: usize) -> Text {
    let kind = get(&draft.lines[place], 1);
    let same: Vec<&Line> = draft
        .lines
        .iter()
        .filter(|line| get(line, 1) == kind)
        .collect();
    if random.percent(70) {
        let line = *random.pick(&same);
        return get(line, field).to_vec();
    }
    let line = random.pick(&draft.lines);
    random.pick(line).clone()
}

/// Damage that aims at a rule.
pub fn damage_by_rule(random: &mut Random, draft: &mut Draft) {
    const AIMS: [fn(&mut Random, &mut Draft); 26] = [
        wrong_number,
        other_uli,
        wrong_date,
        unknown_code,
        end_a_code,
        retire_codes,
        retire_codes,
        drop_an_entry,
        drop_a_pair,
        site_with_method,
        half_empty,
        no_longer_relaxed,
        nearly_relaxed,
        no_pair_and_no_date,
        antigen_again,
        counts_of_a_block,
        other_count,
        other_antigens,
        lot_again,
        block_again,
        other_type,
        alter_ledger,
        unsound_between,
        patient_between,
        field_of_block,
        length_at_its_limit,
    ];
    let aim = *random.pick(&AIMS);
    aim(random, draft);
}

/// The places of lines of a type.
fn places(draft: &Draft, kind: &str) -> Vec<usize> {
    (0..draft.lines.len())
        .filter(|&place| is(&draft.lines[place], kind))
        .collect()
}

/// The place of a line of a type, if there is one.
fn place_of(random: &mut Random, draft: &Draft, kind: &str) -> Option<usize> {
    let places = places(draft, kind);
    (!places.is_empty()).then(|| *random.pick(&places))
}

/// The end of the II or IN at this place with the lines that belong to it.
fn group_end(draft: &Draft, place: usize) -> usize {
    let below = if is(&draft.lines[place], "II") {
        "IE"
    } else {
        "IA"
    };
    place
        + 1
        + draft.lines[place + 1..]
            .iter()
            .take_while(|line| is(line, below))
            .count()
}

fn mostly_renumber(random: &mut Random, draft: &mut Draft) {
    if random.percent(90) {
        renumber(random, &mut draft.lines);
    }
}

fn wrong_number(random: &mut Random, draft: &mut Draft) {
    let kind = *random.pick(&["IP", "II", "IE", "IN", "IA"]);
    if let Some(place) = place_of(random, draft, kind) {
        let number = near_number(random, get(&draft.lines[place], 2));
        set(&mut draft.lines[place], 2, number);
    }
}

fn other_uli(random: &mut Random, draft: &mut Draft) {
    let kind = *random.pick(&["IP", "II", "IE", "IN", "IA"]);
    if let Some(place) = place_of(random, draft, kind) {
        let uli = if random.percent(50) {
            b"123456780".to_vec()
        } else {
            random.pick(&draft.world.ulis).clone()
        };
        set(&mut draft.lines[place], 3, uli);
    }
}

fn wrong_date(random: &mut Random, draft: &mut Draft) {
    let (kind, field) = *random.pick(&[("IP", 25), ("II", 6), ("IN", 5)]);
    if let Some(place) = place_of(random, draft, kind) {
        let text = date_text(random, draft);
        set(&mut draft.lines[place], field, text);
    }
}

fn unknown_code(random: &mut Random, draft: &mut Draft) {
    const FIELDS: [(&str, usize); 9] = [
        ("II", 8),
        ("II", 9),
        ("II", 10),
        ("II", 11),
        ("II", 13),
        ("II", 14),
        ("IE", 4),
        ("IN", 6),
        ("IA", 4),
    ];
    let (kind, field) = *random.pick(&FIELDS);
    if let Some(place) = place_of(random, draft, kind) {
        let line = &mut draft.lines[place];
        let text = get(line, field).to_vec();
        let text = match (code_kind(line, field), random.below(3)) {
            (Some(kind), 0) => draft.world.any_code(random, kind),
            (_, 1) => swapped_case(&text),
            _ => altered(random, &text),
        };
        set(line, field, text);
    }
}

fn swapped_case(text: &[u8]) -> Text {
    text.iter()
        .map(|byte| {
            if byte.is_ascii_alphabetic() {
                byte ^ 32
            } else {
                *byte
            }
        })
        .collect()
}

/// The fields that have a code of the book.
const BOOK_FIELDS: [(&str, usize); 7] = [
    ("II", 8),
    ("II", 11),
    ("II", 13),
    ("II", 14),
    ("IE", 4),
    ("IN", 6),
    ("IA", 4),
];

/// A code of the file, or its pair, ends before or on its day, or starts after it.
fn end_a_code(random: &mut Random, draft: &mut Draft) {
    let (kind, field) = *random.pick(&BOOK_FIELDS);
    let Some(place) = place_of(random, draft, kind) else {
        return;
    };
    let day = day_of(draft, place);
    let code = get(&draft.lines[place], field).to_vec();
    let entry_kind = code_kind(&draft.lines[place], field);
    let with_pairs = random.percent(30);
    let is_it = |entry: &&mut Entry| {
        let alone = Some(entry.kind) == entry_kind && entry.codes[0] == code;
        alone || (with_pairs && entry.codes.get(1) == Some(&code))
    };
    let entries: Vec<&mut Entry> = draft.world.book.iter_mut().filter(is_it).collect();
    for entry in entries {
        match (entry.start, random.below(4)) {
            (Some(_), 0) => entry.start = Some(calendar::day_after(day)),
            (_, 1) => entry.end = day,
            _ => entry.end = calendar::day_before(day),
        }
    }
}

/// Codes and pairs of an II or IN end about its day or about today, or start
/// after its day, whatever II 5 says.
fn retire_codes(random: &mut Random, draft: &mut Draft) {
    let kind = *random.pick(&["II", "II", "IN"]);
    let Some(head) = place_of(random, draft, kind) else {
        return;
    };
    let (day, today) = (day_of(draft, head), draft.world.today);
    for place in head..group_end(draft, head) {
        for (kind, field) in BOOK_FIELDS {
            if is(&draft.lines[place], kind) && random.percent(40) {
                retire_code(random, draft, place, field, (day, today));
            }
        }
    }
    if kind == "II" {
        let nearly = *random.pick(&NEARLY_HISTORICAL);
        let indicator = *random.pick(&["H", "", nearly]);
        set(&mut draft.lines[head], 5, indicator);
    }
}

fn retire_code(
    random: &mut Random,
    draft: &mut Draft,
    place: usize,
    field: usize,
    (day, today): (u32, u32),
) {
    let code = get(&draft.lines[place], field).to_vec();
    let entry_kind = code_kind(&draft.lines[place], field);
    let (alone, with_pairs) = *random.pick(&[(true, false), (false, true), (true, true)]);
    for entry in &mut draft.world.book {
        let is_code = Some(entry.kind) == entry_kind && entry.codes[0] == code;
        let is_pair = entry.codes.get(1) == Some(&code);
        if (alone && is_code) || (with_pairs && is_pair) {
            entry.end = match random.below(8) {
                0 => day,
                1 => calendar::day_before(day),
                2 => today,
                3 | 4 => calendar::day_before(today),
                5 => calendar::day_after(today),
                _ => calendar::between(random, day, today.max(day)),
            };
            if entry.start.is_some() && random.percent(40) {
                entry.start = Some(calendar::day_after(day));
            }
        }
    }
}

/// The day of the record that a line belongs to, or some day.
fn day_of(draft: &Draft, place: usize) -> u32 {
    let head = (0..=place)
        .rev()
        .find(|&head| !is(&draft.lines[head], "IE") && !is(&draft.lines[head], "IA"));
    let line = &draft.lines[head.unwrap_or(place)];
    let field = if is(line, "II") { 6 } else { 5 };
    let day = String::from_utf8_lossy(get(line, field))
        .parse()
        .unwrap_or(0);
    if calendar::is_real(day) {
        day
    } else {
        draft.world.days[0]
    }
}

fn drop_an_entry(random: &mut Random, draft: &mut Draft) {
    if !draft.world.book.is_empty() {
        draft
            .world
            .book
            .remove(random.below(draft.world.book.len()));
    }
}

fn drop_a_pair(random: &mut Random, draft: &mut Draft) {
    let book = &mut draft.world.book;
    let pairs: Vec<usize> = (0..book.len())
        .filter(|&place| book[place].kind >= 7)
        .collect();
    if !pairs.is_empty() {
        book.remove(*random.pick(&pairs));
    }
}

fn site_with_method(random: &mut Random, draft: &mut Draft) {
    if let Some(place) = place_of(random, draft, "II") {
        let plain_site = *random.pick(&PLAIN_SITES);
        let plain_method = *random.pick(&PLAIN_METHODS);
        set(
            &mut draft.lines[place],
            9,
            random.pick(&["MO", "NO", plain_site, "mo", "ZZ", "M1", ""]),
        );
        set(
            &mut draft.lines[place],
            10,
            random.pick(&["PO", "IN", plain_method, "po", "ZZ", "P1", ""]),
        );
    }
}

/// A relaxed event with some of II 9 to 15 empty.
fn half_empty(random: &mut Random, draft: &mut Draft) {
    if let Some(place) = place_of(random, draft, "II") {
        relax(random, &mut draft.lines[place]);
        for _ in 0..random.between(1, 3) {
            let field = *random.pick(&[9, 10, 12, 13, 9, 10, 12, 13, 11, 14, 15]);
            set(&mut draft.lines[place], field, "");
        }
        if random.percent(20) {
            let field = *random.pick(&[9, 10, 12, 13]);
            set(&mut draft.lines[place], field, "?");
        }
    }
}

fn no_longer_relaxed(random: &mut Random, draft: &mut Draft) {
    if let Some(place) = place_of(random, draft, "II") {
        let line = &mut draft.lines[place];
        [5, 18, 19, 20]
            .iter()
            .for_each(|&field| set(line, field, ""));
        let field = random.between(9, 15);
        set(line, field, "");
    }
}

/// What is near to one of the four ways to a relaxed event, with a field empty.
fn nearly_relaxed(random: &mut Random, draft: &mut Draft) {
    const NEAR: [(usize, &str); 8] = [
        (5, "h"),
        (5, " "),
        (5, "HH"),
        (5, "A"),
        (18, "AB"),
        (18, "AB"),
        (18, ""),
        (20, ""),
    ];
    if let Some(place) = place_of(random, draft, "II") {
        let line = &mut draft.lines[place];
        [5, 18, 19, 20]
            .iter()
            .for_each(|&field| set(line, field, ""));
        let (field, text) = *random.pick(&NEAR);
        set(line, field, text);
        if text == "AB" {
            set(line, 19, random.pick(&["CA", "", "US"]));
        }
        set(line, random.between(9, 15), "");
    }
}

/// An II without a sound date whose pairs are not all in the book, or have ended.
fn no_pair_and_no_date(random: &mut Random, draft: &mut Draft) {
    if let Some(place) = place_of(random, draft, "II") {
        set(
            &mut draft.lines[place],
            6,
            random.pick(&calendar::NOT_DATES),
        );
        let vaccine = get(&draft.lines[place], 8).to_vec();
        let is_its_pair = |entry: &Entry| entry.kind >= 7 && entry.codes[0] == vaccine;
        if random.percent(50) {
            draft
                .world
                .book
                .retain(|entry| !is_its_pair(entry) || random.percent(50));
        } else {
            let pairs = draft
                .world
                .book
                .iter_mut()
                .filter(|entry| is_its_pair(entry));
            pairs.for_each(|entry| entry.end = calendar::FIRST);
        }
    }
}

/// An IE again in its II, perhaps with another count or an antigen unknown.
fn antigen_again(random: &mut Random, draft: &mut Draft) {
    if let Some(place) = place_of(random, draft, "IE") {
        if random.percent(20) {
            set(
                &mut draft.lines[place],
                4,
                random.pick(&["UNKNOWN", "?", "TEST A"]),
            );
        }
        let mut line = draft.lines[place].clone();
        if random.percent(50) {
            set(&mut line, 5, random.pick(&["1", "2", "01", "0", "x", ""]));
        }
        let first = (0..place)
            .rev()
            .find(|&before| is(&draft.lines[before], "II"))
            .unwrap_or(place);
        let end = group_end(draft, first);
        draft.lines.insert(random.between(first + 1, end), line);
        mostly_renumber(random, draft);
    }
}

/// A block of three II or more with counts of all makes.
fn counts_of_a_block(random: &mut Random, draft: &mut Draft) {
    let Some(place) = place_of(random, draft, "II") else {
        return;
    };
    let end = group_end(draft, place);
    let mut copies = Vec::new();
    for copy in 0..2 {
        let mut group = draft.lines[place..end].to_vec();
        set(&mut group[0], 15, format!("C{copy}"));
        copies.extend(group);
    }
    draft.lines.splice(end..end, copies);
    for line in draft.lines[place..end + 2 * (end - place)]
        .iter_mut()
        .filter(|line| is(line, "IE"))
    {
        if random.percent(40) {
            set(line, 5, random.pick(&["1", "01", "2", "02", "0", "x"]));
        }
    }
    mostly_renumber(random, draft);
}

fn other_count(random: &mut Random, draft: &mut Draft) {
    if let Some(place) = place_of(random, draft, "IE") {
        set(
            &mut draft.lines[place],
            5,
            random.pick(&["1", "01", "2", "02", "3", "99", "0", "x"]),
        );
    }
}

/// An II has one antigen more, one less, or another.
fn other_antigens(random: &mut Random, draft: &mut Draft) {
    if let Some(place) = place_of(random, draft, "II") {
        let end = group_end(draft, place);
        let code = draft.world.any_code(random, 2);
        let uli = get(&draft.lines[place], 3).to_vec();
        let line = antigen_count(random, &uli, &code, 1);
        match random.below(3) {
            0 if end > place + 2 => drop(draft.lines.remove(random.between(place + 1, end - 1))),
            1 if end > place + 1 => draft.lines[end - 1] = line,
            _ => draft.lines.insert(random.between(place + 1, end), line),
        }
        mostly_renumber(random, draft);
    }
}

/// The lot of another II, or none on both.
fn lot_again(random: &mut Random, draft: &mut Draft) {
    let (Some(one), Some(other)) = (place_of(random, draft, "II"), place_of(random, draft, "II"))
    else {
        return;
    };
    if random.percent(30) {
        for place in [one, other] {
            if random.percent(70) {
                relax(random, &mut draft.lines[place]);
            }
            set(&mut draft.lines[place], 15, "");
        }
    }
    let lot = get(&draft.lines[one], 15).to_vec();
    set(&mut draft.lines[other], 15, lot);
}

/// An II with its IE lines again, somewhere among the II of the file.
fn block_again(random: &mut Random, draft: &mut Draft) {
    let (Some(from), Some(near)) = (place_of(random, draft, "II"), place_of(random, draft, "II"))
    else {
        return;
    };
    let mut group = draft.lines[from..group_end(draft, from)].to_vec();
    if random.percent(60) {
        let lot = format!("N{}", random.below(1000));
        set(&mut group[0], 15, lot);
    }
    if random.percent(25) {
        set(&mut group[0], 4, random.pick(&["A", "C", "D"]));
    }
    let place = if random.percent(50) {
        near
    } else {
        group_end(draft, near)
    };
    draft.lines.splice(place..place, group);
    mostly_renumber(random, draft);
}

/// Another type on one II, or on all of its event.
fn other_type(random: &mut Random, draft: &mut Draft) {
    if let Some(place) = place_of(random, draft, "II") {
        let named = [3, 6, 8].map(|field| get(&draft.lines[place], field).to_vec());
        let kind = *random.pick(&["A", "C", "D"]);
        let whole = random.percent(60);
        for other in places(draft, "II") {
            let line = &mut draft.lines[other];
            let same = [3, 6, 8]
                .iter()
                .zip(&named)
                .all(|(&field, text)| get(line, field) == text);
            if other == place || (whole && same) {
                set(line, 4, kind);
            }
        }
    }
}

/// The event of an II becomes live, or is live no more.
fn alter_ledger(random: &mut Random, draft: &mut Draft) {
    let Some(place) = place_of(random, draft, "II") else {
        return;
    };
    let day = day_of(draft, place);
    let line = &draft.lines[place];
    if get(line, 3).len() == 9 && get(line, 8).len() <= 20 {
        let named = event(get(line, 3), day, get(line, 8));
        match draft.world.live.iter().position(|live| *live == named) {
            Some(slot) => drop(draft.world.live.remove(slot)),
            None => draft.world.live.push(named),
        }
        draft.world.order_live();
    }
}

/// An II that is in no block, perhaps between two of one event.
fn unsound_between(random: &mut Random, draft: &mut Draft) {
    if let Some(place) = place_of(random, draft, "II") {
        let mut group = draft.lines[place..group_end(draft, place)].to_vec();
        let (field, text) = *random.pick(&[
            (3, "12345678"),
            (4, "X"),
            (6, "20230229"),
            (8, "A B"),
            (4, ""),
            (8, ""),
        ]);
        if random.percent(60) {
            set(&mut group[0], field, text);
            let after = group_end(draft, place);
            let copy = draft.lines[place..after].to_vec();
            draft
                .lines
                .splice(after..after, group.into_iter().chain(copy));
        } else {
            set(&mut draft.lines[place], field, text);
        }
        mostly_renumber(random, draft);
    }
}

/// The IP again, between two II of one patient.
fn patient_between(random: &mut Random, draft: &mut Draft) {
    if let Some(place) = place_of(random, draft, "II") {
        let patient = (0..place)
            .rev()
            .find(|&before| is(&draft.lines[before], "IP"));
        if let Some(patient) = patient {
            let line = draft.lines[patient].clone();
            let end = group_end(draft, place);
            let copy = draft.lines[place..end].to_vec();
            let again = if random.percent(50) { copy } else { Vec::new() };
            draft
                .lines
                .splice(end..end, std::iter::once(line).chain(again));
            mostly_renumber(random, draft);
        }
    }
}

/// One of the fields that an II shares with its block.
fn field_of_block(random: &mut Random, draft: &mut Draft) {
    if let Some(place) = place_of(random, draft, "II") {
        let field = *random.pick(&[3, 4, 6, 8]);
        let text = match field {
            3 => random.pick(&draft.world.ulis).clone(),
            4 => random.pick(&["A", "C", "D"]).as_bytes().to_vec(),
            6 => random.pick(&draft.world.days).to_string().into_bytes(),
            _ => draft.world.any_code(random, 1),
        };
        set(&mut draft.lines[place], field, text);
    }
}

/// A text as long as its form allows, or one byte longer.
fn length_at_its_limit(random: &mut Random, draft: &mut Draft) {
    const LIMITS: [(&str, usize, usize, u8); 16] = [
        ("II", 8, 20, b'~'),
        ("II", 9, 4, b'L'),
        ("II", 10, 3, b'z'),
        ("II", 11, 2, b'5'),
        ("II", 12, 6, b'9'),
        ("II", 13, 4, b'U'),
        ("II", 14, 3, b'g'),
        ("II", 15, 20, b'-'),
        ("IE", 4, 20, b'!'),
        ("IE", 5, 2, b'9'),
        ("IN", 6, 3, b'Z'),
        ("IN", 7, 4, b'0'),
        ("IN", 8, 2, b'a'),
        ("IH", 2, 3, b'0'),
        ("IH", 3, 10, b'A'),
        ("IF", 2, 10, b'9'),
    ];
    let (kind, field, most, byte) = *random.pick(&LIMITS);
    if let Some(place) = place_of(random, draft, kind) {
        let mut text = vec![byte; most + random.below(2)];
        if field == 12 {
            text.extend(random.pick(&["", ".1", ".01", ".001", "."]).bytes());
        }
        set(&mut draft.lines[place], field, text);
    }
}
