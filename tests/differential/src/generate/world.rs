//! What a submission is written against: today, the days and patients that its
//! events have, the code book and the live events of the ledger.

use super::calendar;
use crate::random::Random;

pub const OPEN: u32 = 99_999_999;

pub type Text = Vec<u8>;

/// An entry of the book, its codes without their padding.
#[derive(Clone, Debug)]
pub struct Entry {
    pub kind: u8,
    pub codes: Vec<Text>,
    pub start: Option<u32>,
    pub end: u32,
}

/// The widths of the codes of a kind.
pub fn widths(kind: u8) -> &'static [usize] {
    match kind {
        1 | 2 => &[20],
        3 => &[2],
        4 | 6 => &[3],
        5 => &[4],
        7 => &[20, 2],
        _ => &[20, 20],
    }
}

pub fn padded(code: &[u8], width: usize) -> Text {
    let mut text = code.to_vec();
    text.resize(width, b' ');
    text
}

impl Entry {
    /// The kind and the code bytes, by which entries ascend.
    pub fn key(&self) -> Text {
        let mut key = vec![self.kind];
        for (code, &width) in self.codes.iter().zip(widths(self.kind)) {
            key.extend(padded(code, width));
        }
        key
    }

    pub fn bytes(&self) -> Text {
        let mut bytes = self.key();
        if let Some(start) = self.start {
            bytes.extend(format!("{start:08}").bytes());
        }
        bytes.extend(format!("{:08}", self.end).bytes());
        bytes
    }

    fn in_force(&self, asked: Asked) -> bool {
        self.start.unwrap_or(0) <= asked.day && asked.day <= self.end && asked.ends_from <= self.end
    }
}

/// The day that codes must be in force on, and the first on which they may end.
#[derive(Clone, Copy, Debug)]
pub struct Asked {
    pub day: u32,
    pub ends_from: u32,
}

impl Asked {
    /// The day alone.
    pub fn on(day: u32) -> Asked {
        Asked { day, ends_from: 0 }
    }
}

/// How much of everything a case may have.
#[derive(Clone, Copy, Debug)]
pub struct Size {
    pub patients: usize,
    pub blocks: usize,
    pub lots: usize,
    pub antigens: usize,
    pub not_immunized: usize,
    pub codes: usize,
    pub live: usize,
}

impl Size {
    pub const TINY: Size = Size {
        patients: 1,
        blocks: 2,
        lots: 2,
        antigens: 1,
        not_immunized: 1,
        codes: 1,
        live: 2,
    };
    pub const SMALL: Size = Size {
        patients: 3,
        blocks: 3,
        lots: 3,
        antigens: 3,
        not_immunized: 2,
        codes: 3,
        live: 5,
    };
    pub const MANY_PATIENTS: Size = Size {
        patients: 60,
        blocks: 4,
        lots: 3,
        antigens: 4,
        not_immunized: 3,
        codes: 12,
        live: 60,
    };
    pub const MANY_BLOCKS: Size = Size {
        patients: 2,
        blocks: 120,
        lots: 2,
        antigens: 2,
        not_immunized: 2,
        codes: 12,
        live: 100,
    };
    pub const MANY_LOTS: Size = Size {
        patients: 2,
        blocks: 2,
        lots: 120,
        antigens: 2,
        not_immunized: 1,
        codes: 3,
        live: 3,
    };
    pub const MANY_ANTIGENS: Size = Size {
        patients: 2,
        blocks: 2,
        lots: 4,
        antigens: 80,
        not_immunized: 2,
        codes: 90,
        live: 3,
    };
    /// The draft that long lists are put into.
    pub const LISTS: Size = Size {
        patients: 2,
        blocks: 2,
        lots: 2,
        antigens: 40,
        not_immunized: 1,
        codes: 40,
        live: 3,
    };
}

#[derive(Clone, Debug)]
pub struct World {
    pub today: u32,
    pub days: Vec<u32>,
    pub ulis: Vec<Text>,
    pub book: Vec<Entry>,
    pub live: Vec<Text>,
}

const VACCINES: [&str; 16] = [
    "TESTV",
    "FLU",
    "flu",
    "MMR",
    "F",
    "FL",
    "FLU-HD",
    "A",
    "DTaP-IPV-Hib",
    "!",
    "~",
    "VVVVVVVVVVVVVVVVVVVV",
    "VVVVVVVVVVVVVVVVVVVW",
    "VVVVVVVVVVVVVVVVVVV",
    "TESTA",
    "50",
];
const ANTIGENS: [&str; 13] = [
    "TESTA",
    "FLU",
    "MEA",
    "MU",
    "RUB",
    "D",
    "d",
    "T",
    "AAAAAAAAAAAAAAAAAAAA",
    "AAAAAAAAAAAAAAAAAAA",
    "~~",
    "TESTV",
    "!1",
];
const REASONS: [&str; 9] = ["50", "02", "05", "99", "00", "01", "20", "10", "51"];
const MANUFACTURERS: [&str; 9] = ["GSK", "MF", "M", "gsk", "PFZ", "G", "GS", "Z", "zzz"];
const DOSAGE_TYPES: [&str; 8] = ["ML", "mL", "MCG", "UNIT", "U", "M", "Unit", "zzzz"];
const REASONS_NOT: [&str; 7] = ["AR", "REF", "UNK", "A", "ar", "Z", "zzz"];

/// The codes that an entry of this kind may have.
fn names(kind: u8) -> &'static [&'static str] {
    match kind {
        1 => &VACCINES,
        2 => &ANTIGENS,
        3 => &REASONS,
        4 => &MANUFACTURERS,
        5 => &DOSAGE_TYPES,
        _ => &REASONS_NOT,
    }
}

impl World {
    pub fn new(random: &mut Random, size: Size) -> World {
        let today = calendar::any_day(random);
        let days = (0..random.between(1, 4))
            .map(|_| calendar::on_or_before(random, today))
            .collect();
        let ulis = (0..random.between(1, 1 + size.patients))
            .map(|_| uli(random))
            .collect();
        let mut world = World {
            today,
            days,
            ulis,
            book: Vec::new(),
            live: Vec::new(),
        };
        for kind in 1..=6 {
            world.add_codes(random, kind, size.codes);
        }
        world.add_pairs(random, 7, 3);
        world.add_pairs(random, 8, 2);
        world.put_in_order();
        world.add_live(random, size.live);
        world
    }

    /// Up to so many codes of a kind, the first open and the others as may be.
    fn add_codes(&mut self, random: &mut Random, kind: u8, most: usize) {
        let most = if kind == 1 && most > 20 { 3 } else { most };
        for place in 0..random.between(most.div_ceil(2), most) {
            let name = random.pick(names(kind)).to_string();
            let name = if most > 8 && kind <= 2 && place > 0 {
                format!("{kind}{place}")
            } else {
                name
            };
            let plain = place == 0;
            let start = (kind == 1).then(|| {
                if plain {
                    calendar::FIRST
                } else {
                    self.start(random)
                }
            });
            let end = if plain { OPEN } else { self.end(random) };
            self.book.push(Entry {
                kind,
                codes: vec![name.into_bytes()],
                start,
                end,
            });
        }
    }

    /// Most pairs of a vaccine with a code of another kind.
    fn add_pairs(&mut self, random: &mut Random, kind: u8, other: u8) {
        for vaccine in self.codes(1) {
            for code in self.codes(other) {
                if random.percent(90) {
                    let end = if random.percent(75) {
                        OPEN
                    } else {
                        self.end(random)
                    };
                    self.book.push(Entry {
                        kind,
                        codes: vec![vaccine.clone(), code],
                        start: None,
                        end,
                    });
                }
            }
        }
    }

    fn start(&self, random: &mut Random) -> u32 {
        match random.below(8) {
            0 => *random.pick(&self.days),
            1 | 2 => calendar::day_after(*random.pick(&self.days)),
            3 => calendar::any_day(random),
            _ => calendar::FIRST,
        }
    }

    /// An end, often near to a day of the events or to today.
    fn end(&self, random: &mut Random) -> u32 {
        let day = *random.pick(&self.days);
        match random.below(12) {
            0 => day,
            1 => calendar::day_before(day),
            2 => calendar::any_day(random),
            3 => self.today,
            4 => calendar::day_before(self.today),
            5 => calendar::day_after(self.today),
            6 | 7 => calendar::between(random, day, self.today),
            _ => OPEN,
        }
    }

    /// The form of a book: ascending, each key once.
    pub fn put_in_order(&mut self) {
        self.book.sort_by_key(Entry::key);
        self.book.dedup_by_key(|entry| entry.key());
    }

    fn add_live(&mut self, random: &mut Random, most: usize) {
        for _ in 0..random.between(0, most) {
            let event = self.any_event(random);
            self.live.push(event);
        }
        self.order_live();
    }

    pub fn order_live(&mut self) {
        self.live.sort();
        self.live.dedup();
    }

    fn any_event(&self, random: &mut Random) -> Text {
        let day = *random.pick(&self.days);
        let vaccine = self.any_code(random, 1);
        let uli = random.pick(&self.ulis);
        event(uli, day, &vaccine)
    }

    pub fn book_bytes(&self) -> Text {
        self.book.iter().flat_map(Entry::bytes).collect()
    }

    pub fn ledger_bytes(&self, free: usize) -> Text {
        let mut bytes = Vec::new();
        for event in &self.live {
            bytes.push(1);
            bytes.extend(event);
        }
        bytes.resize(bytes.len() + 38 * free, 0);
        bytes
    }

    /// All codes of a kind.
    pub fn codes(&self, kind: u8) -> Vec<Text> {
        self.book
            .iter()
            .filter(|entry| entry.kind == kind)
            .map(|entry| entry.codes[0].clone())
            .collect()
    }

    /// A code of a kind, in the book or not.
    pub fn any_code(&self, random: &mut Random, kind: u8) -> Text {
        let codes = self.codes(kind);
        if codes.is_empty() || random.percent(3) {
            return random.pick(names(kind)).as_bytes().to_vec();
        }
        random.pick(&codes).clone()
    }

    /// A code in force, if there is one.
    pub fn good_code(&self, random: &mut Random, kind: u8, asked: Asked) -> Text {
        let good = self.codes_in_force(kind, asked);
        if good.is_empty() {
            return self.any_code(random, kind);
        }
        random.pick(&good).clone()
    }

    fn codes_in_force(&self, kind: u8, asked: Asked) -> Vec<Text> {
        let in_force = self
            .book
            .iter()
            .filter(|entry| entry.kind == kind && entry.in_force(asked));
        in_force.map(|entry| entry.codes[0].clone()).collect()
    }

    /// The codes of a kind in force that have their pair with the vaccine in
    /// force, or any code if there are none.
    pub fn good_with(
        &self,
        random: &mut Random,
        pair: u8,
        other: u8,
        vaccine: &[u8],
        asked: Asked,
    ) -> Vec<Text> {
        let mut good = self.codes_in_force(other, asked);
        good.retain(|code| {
            self.book.iter().any(|entry| {
                entry.kind == pair
                    && entry.codes[0] == vaccine
                    && entry.codes[1] == *code
                    && entry.in_force(asked)
            })
        });
        if good.is_empty() {
            good.push(self.any_code(random, other));
        }
        good
    }
}

fn uli(random: &mut Random) -> Text {
    match random.below(6) {
        0 => b"123456789".to_vec(),
        1 => b"000000000".to_vec(),
        2 => b"999999999".to_vec(),
        _ => format!("{:09}", random.below(1_000_000_000)).into_bytes(),
    }
}

/// The 37 bytes of an event.
pub fn event(uli: &[u8], day: u32, vaccine: &[u8]) -> Text {
    let mut event = uli.to_vec();
    event.extend(format!("{day:08}").bytes());
    event.extend(padded(vaccine, 20));
    event
}
