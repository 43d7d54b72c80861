//! The generator of cases: the same seed and number give the same case.

pub mod calendar;
pub mod charts;
mod damage;
mod lists;
mod records;
pub mod shapes;
pub mod submission;
pub mod world;

use crate::case::Case;
use crate::check;
use crate::random::Random;
use damage::Draft;
use lists::Length;
pub use records::{long_book, long_ledger, BOOK_MOST, SLOT, SLOTS_MOST};
use submission::{get, is, Line};
use world::{Size, Text, World};

pub const FILE_MOST: usize = 5_000_000;

/// What is done to a draft before it becomes a case.
#[derive(Clone, Copy, PartialEq)]
enum Theme {
    Clean,
    OneField,
    Fields,
    Nearby,
    Rules,
    Shape,
    Book,
    Ledger,
    Today,
    Everything,
    Soup,
}

fn theme(random: &mut Random) -> Theme {
    match random.below(100) {
        0..=14 => Theme::Clean,
        15..=26 => Theme::OneField,
        27..=34 => Theme::Fields,
        35..=44 => Theme::Nearby,
        45..=70 => Theme::Rules,
        71..=82 => Theme::Shape,
        83..=88 => Theme::Book,
        89..=94 => Theme::Ledger,
        95 => Theme::Today,
        96..=98 => Theme::Everything,
        _ => Theme::Soup,
    }
}

/// The case of this number. A few are at the limits of length, one in sixty is
/// long, one in forty has long lists, the others are small.
pub fn case(seed: u64, number: u64) -> Case {
    let mut random = Random::of(seed, number);
    if let Some(case) = at_a_limit(&mut random, number % 5000) {
        return case;
    }
    let size = match random.below(240) {
        0 => Size::MANY_PATIENTS,
        1 => Size::MANY_BLOCKS,
        2 => Size::MANY_LOTS,
        3 => Size::MANY_ANTIGENS,
        4..=6 => return case_of_lists(&mut random, Length::Few),
        7 => return case_of_lists(&mut random, Length::Hundreds),
        8 | 9 => return case_of_lists(&mut random, Length::Sixteenth),
        _ => Size::SMALL,
    };
    case_of(&mut random, size)
}

/// A case with long lists of antigens and lots, mostly with room for all of its
/// findings.
fn case_of_lists(random: &mut Random, length: Length) -> Case {
    let world = World::new(random, Size::LISTS);
    let mut lines = Vec::new();
    while !lines.iter().any(|line| is(line, "II")) {
        lines = submission::submission(random, &world, Size::LISTS);
    }
    let is_plain = random.percent(20);
    lists::lengthen(random, length, is_plain, &mut lines);
    let mut draft = Draft { world, lines };
    let rules = if is_plain { 0 } else { random.below(3) };
    for _ in 0..rules {
        damage::damage_by_rule(random, &mut draft);
    }
    let mut case = written(random, Theme::Clean, &draft);
    case.room = if random.percent(80) {
        exact_room(&case)
    } else {
        room(random, &case)
    };
    case
}

/// A case that a slow checker can bear.
pub fn tiny_case(seed: u64, number: u64) -> Case {
    case_of(&mut Random::of(seed, number), Size::TINY)
}

fn case_of(random: &mut Random, size: Size) -> Case {
    let world = World::new(random, size);
    let lines = submission::submission(random, &world, size);
    let mut draft = Draft { world, lines };
    let theme = theme(random);
    damage_draft(random, theme, &mut draft);
    let mut case = written(random, theme, &draft);
    case.room = room(random, &case);
    case
}

fn damage_draft(random: &mut Random, theme: Theme, draft: &mut Draft) {
    let (rules, fields, nearby) = match theme {
        Theme::OneField => (0, 1, 0),
        Theme::Fields => (0, random.between(2, 6), 0),
        Theme::Nearby => (random.below(2), 0, random.between(2, 5)),
        Theme::Rules => (random.between(1, 3), 0, 0),
        Theme::Everything => (random.below(3), random.below(3), 0),
        _ => (0, 0, 0),
    };
    for _ in 0..rules {
        damage::damage_by_rule(random, draft);
    }
    for _ in 0..fields {
        damage::damage_field(random, draft);
    }
    damage::damage_fields_nearby(random, draft, nearby);
}

fn written(random: &mut Random, theme: Theme, draft: &Draft) -> Case {
    let everything = theme == Theme::Everything;
    let free = free_slots(random, draft);
    let is_bad =
        |random: &mut Random, one: Theme| theme == one || (everything && random.percent(40));
    let today = if is_bad(random, Theme::Today) {
        bad_today(random)
    } else {
        draft.world.today
    };
    let file = if theme == Theme::Soup {
        shapes::soup(random)
    } else {
        file(random, theme, draft)
    };
    let book = if is_bad(random, Theme::Book) {
        records::damage_book(random, &draft.world)
    } else {
        draft.world.book_bytes()
    };
    let ledger = if is_bad(random, Theme::Ledger) {
        records::damage_ledger(random, &draft.world, free)
    } else {
        draft.world.ledger_bytes(free)
    };
    Case {
        today,
        file,
        book,
        ledger,
        room: 0,
    }
}

fn bad_today(random: &mut Random) -> u32 {
    match random.below(3) {
        0 => random.next() as u32,
        _ => *random.pick(&calendar::NOT_TODAY),
    }
}

fn file(random: &mut Random, theme: Theme, draft: &Draft) -> Text {
    let mut lines = shapes::written(random, &draft.lines);
    let faults = match theme {
        Theme::Shape => random.between(1, 3),
        Theme::Everything => random.below(3),
        _ => 0,
    };
    for _ in 0..faults {
        shapes::damage(random, &mut lines);
    }
    shapes::file(&lines)
}

/// Free slots: what the file needs, one less, or any number.
fn free_slots(random: &mut Random, draft: &Draft) -> usize {
    let needed = blocks(&draft.lines, b"A").saturating_sub(blocks(&draft.lines, b"D"));
    match random.below(8) {
        0 => 0,
        1 | 2 => needed.saturating_sub(1),
        3 | 4 => needed,
        5 => needed + 1,
        _ => needed + random.below(6),
    }
}

/// The events that II lines with this type name.
fn blocks(lines: &[Line], submission_type: &[u8]) -> usize {
    let of_type = lines
        .iter()
        .filter(|line| is(line, "II") && get(line, 4) == submission_type);
    let mut events: Vec<[&[u8]; 3]> = of_type
        .map(|line| [get(line, 3), get(line, 6), get(line, 8)])
        .collect();
    events.sort();
    events.dedup();
    events.len()
}

/// The findings area: ample, or about as long as the list.
fn room(random: &mut Random, case: &Case) -> usize {
    match random.below(10) {
        0..=5 => 600,
        6 => random.below(14),
        7 => random.below(60),
        _ => (exact_room(case) + random.below(14)).saturating_sub(7),
    }
}

/// The bytes of all findings.
fn exact_room(case: &Case) -> usize {
    let list = check::all_findings(case.today, &case.file, &case.book, &case.ledger);
    list.len() * check::FINDING_WIDTH
}

/// Cases at the limits of length: of the file, of the book and of the ledger.
fn at_a_limit(random: &mut Random, number: u64) -> Option<Case> {
    let mut case = Case {
        today: 20220930,
        room: 600,
        ..Case::default()
    };
    match number {
        17 => case.file = long_file(random, FILE_MOST),
        34 => case.file = long_file(random, FILE_MOST + 1),
        51 => case.file = b"IV|7.2|\nIH|1|1|\nIF|0|0|\n".to_vec(),
        _ => (),
    }
    match number {
        17 | 34 => case.ledger = long_ledger(80_000, 10),
        51 => case.book = long_book(BOOK_MOST),
        68 => case.book = long_book(BOOK_MOST + 1),
        85 => case.ledger = long_ledger(SLOTS_MOST, random.between(0, SLOTS_MOST)),
        102 => case.ledger = long_ledger(SLOTS_MOST + 1, 3),
        _ => return None,
    }
    if number <= 34 {
        case.book = plain_book();
    }
    Some(case)
}

/// One code of each kind, all open.
pub fn plain_book() -> Text {
    let codes: [(u8, &[&str]); 8] = [
        (1, &["TESTV"]),
        (2, &["TESTA"]),
        (3, &["50"]),
        (4, &["GSK"]),
        (5, &["ML"]),
        (6, &["REF"]),
        (7, &["TESTV", "50"]),
        (8, &["TESTV", "TESTA"]),
    ];
    let entry = |(kind, codes): (u8, &[&str])| world::Entry {
        kind,
        codes: codes.iter().map(|code| code.as_bytes().to_vec()).collect(),
        start: (kind == 1).then_some(20000101),
        end: world::OPEN,
    };
    codes
        .into_iter()
        .flat_map(|codes| entry(codes).bytes())
        .collect()
}

/// A file of exactly this length: patients with one event each, and a name that
/// fills what is left.
pub fn long_file(random: &mut Random, length: usize) -> Text {
    let mut file = b"IV|7.2|\nIH|10|000001|\n".to_vec();
    let footer = b"IF|8|0|\n";
    let mut place = 1;
    let most = if random.percent(50) {
        length - 2000
    } else {
        length / 50
    };
    while file.len() < most {
        file.extend(one_patient(place, "SMITH"));
        place += 3;
    }
    let bare = one_patient(place, "").len() + footer.len();
    let name = "N".repeat(length - file.len() - bare);
    file.extend(one_patient(place, &name));
    file.extend(footer);
    file
}

fn one_patient(place: usize, name: &str) -> Text {
    let uli = format!("{place:09}");
    let ip = format!("IP|{place}|{uli}|||||{name}|JOHN||||||||||||||||20150301|||\n");
    let ii = format!(
        "II|{}|{uli}|A||20220901||TESTV|LA|IM|50|0.5|ML|GSK|L1||||||||\n",
        place + 1
    );
    let ie = format!("IE|{}|{uli}|TESTA|1|\n", place + 2);
    [ip, ii, ie].concat().into_bytes()
}
