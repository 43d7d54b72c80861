//! Submissions in which the rules find little or nothing.

use super::calendar;
use super::world::{event, Asked, Size, Text, World};
use crate::random::Random;

/// A line as the texts of its fields.
pub type Line = Vec<Text>;

pub fn set(line: &mut Line, field: usize, text: impl AsRef<[u8]>) {
    line[field - 1] = text.as_ref().to_vec();
}

pub fn get(line: &Line, field: usize) -> &[u8] {
    line.get(field - 1).map_or(&[], |text| text)
}

/// A record of this type with nothing in its other fields.
pub fn record(kind: &str, fields: usize) -> Line {
    let mut line = vec![Vec::new(); fields];
    set(&mut line, 1, kind);
    line
}

pub fn is(line: &Line, kind: &str) -> bool {
    get(line, 1) == kind.as_bytes()
}

/// A record that has a number at field 2 and a ULI at field 3.
pub fn is_numbered(line: &Line) -> bool {
    ["IP", "II", "IE", "IN", "IA"]
        .iter()
        .any(|kind| is(line, kind))
}

/// The lines of a whole submission.
pub fn submission(random: &mut Random, world: &World, size: Size) -> Vec<Line> {
    let mut writer = Writer {
        world,
        size,
        is_careless: random.percent(30),
        named: Vec::new(),
        lines: Vec::new(),
    };
    writer.write(random);
    renumber(random, &mut writer.lines);
    writer.lines
}

/// Field 2 becomes the place among the numbered lines.
pub fn renumber(random: &mut Random, lines: &mut [Line]) {
    let mut place = 0;
    for line in lines.iter_mut().filter(|line| is_numbered(line)) {
        place += 1;
        let width = if random.percent(5) {
            random.between(1, 5)
        } else {
            1
        };
        set(line, 2, format!("{place:0width$}"));
    }
}

struct Writer<'a> {
    world: &'a World,
    size: Size,
    /// Whether codes that have ended are used without H, and any vaccine.
    is_careless: bool,
    /// The events that blocks name so far.
    named: Vec<Text>,
    lines: Vec<Line>,
}

/// What the II lines of a block share.
struct Block {
    uli: Text,
    submission_type: &'static str,
    /// II 5, mostly.
    indicator: &'static str,
    /// What its codes are picked by.
    asked: Asked,
    vaccine: Text,
    antigens: Vec<(Text, usize)>,
}

impl Writer<'_> {
    fn write(&mut self, random: &mut Random) {
        self.push_version();
        self.push_header(random);
        for _ in 0..count(random, self.size.patients, 4) {
            self.push_patient(random);
        }
        self.push_footer(random);
    }

    fn push_version(&mut self) {
        let mut line = record("IV", 2);
        set(&mut line, 2, "7.2");
        self.lines.push(line);
    }

    fn push_header(&mut self, random: &mut Random) {
        let mut line = record("IH", 3);
        set(&mut line, 2, random.pick(&["10", "9", "zzz", "A1", "Z0a"]));
        set(
            &mut line,
            3,
            random.pick(&["000001", "1", "ABCDEFGHIJ", "0123456789", "z"]),
        );
        self.lines.push(line);
    }

    fn push_footer(&mut self, random: &mut Random) {
        let mut line = record("IF", 3);
        set(
            &mut line,
            2,
            random.pick(&["8", "0", "0123456789", "5", "99999"]),
        );
        set(&mut line, 3, random.pick(&["0", " ", "x", "17128", "~"]));
        self.lines.push(line);
    }

    fn push_patient(&mut self, random: &mut Random) {
        let uli = random.pick(&self.world.ulis).clone();
        let blocks = count(random, self.size.blocks, 25);
        let not_immunized =
            count(random, self.size.not_immunized, 60).max(usize::from(blocks == 0));
        let place = self.lines.len();
        self.lines.push(record("IP", 27));
        let mut days = Vec::new();
        for _ in 0..blocks {
            days.push(self.push_block(random, &uli));
        }
        for _ in 0..not_immunized {
            days.push(self.push_not_immunized(random, &uli));
        }
        let first = days.iter().copied().min().unwrap_or(self.world.today);
        let birth = calendar::on_or_before(random, first);
        self.lines[place] = patient(random, &uli, birth);
    }

    /// A block for an event that no block names yet, if one can be found. Gives
    /// back its day.
    fn push_block(&mut self, random: &mut Random, uli: &[u8]) -> u32 {
        let mut block = self.block(random, uli);
        for _ in 0..8 {
            if !self
                .named
                .contains(&event(&block.uli, block.asked.day, &block.vaccine))
            {
                break;
            }
            block = self.block(random, uli);
        }
        self.named
            .push(event(&block.uli, block.asked.day, &block.vaccine));
        let mut lots = Vec::new();
        for _ in 0..count(random, self.size.lots, 0).max(1) {
            self.push_immunization(random, &block, &mut lots);
        }
        block.asked.day
    }

    fn block(&self, random: &mut Random, uli: &[u8]) -> Block {
        let day = *random.pick(&self.world.days);
        let indicator = self.indicator(random);
        let asked = if indicator == "H" || self.is_careless {
            Asked::on(day)
        } else {
            Asked {
                day,
                ends_from: self.world.today,
            }
        };
        let vaccine = if self.is_careless && random.percent(20) {
            self.world.any_code(random, 1)
        } else {
            self.world.good_code(random, 1, asked)
        };
        let is_live = self.world.live.contains(&event(uli, day, &vaccine));
        let submission_type = if is_live {
            random.pick(&["C", "D"])
        } else {
            "A"
        };
        let mut codes = self.world.good_with(random, 8, 2, &vaccine, asked);
        random.shuffle(&mut codes);
        codes.truncate(random.between(1, self.size.antigens));
        let antigens = codes
            .into_iter()
            .map(|code| (code, *random.pick(&[1, 1, 1, 2, 3, 10, 99])))
            .collect();
        Block {
            uli: uli.to_vec(),
            submission_type,
            indicator,
            asked,
            vaccine,
            antigens,
        }
    }

    /// II 5: H, nothing, or in a careless file what is near to H.
    fn indicator(&self, random: &mut Random) -> &'static str {
        let nearly = *random.pick(&NEARLY_HISTORICAL);
        match random.below(10) {
            0..=2 => "H",
            3 if self.is_careless => nearly,
            _ => "",
        }
    }

    /// An II of the block with its IE lines in any order.
    fn push_immunization(&mut self, random: &mut Random, block: &Block, lots: &mut Vec<Text>) {
        let mut ii = record("II", 22);
        set(&mut ii, 3, &block.uli);
        set(&mut ii, 4, block.submission_type);
        set(&mut ii, 5, block.indicator);
        if self.is_careless && random.percent(20) {
            set(&mut ii, 5, self.indicator(random));
        }
        set(&mut ii, 6, format!("{:08}", block.asked.day));
        set(&mut ii, 7, random.pick(&["", "", "E"]));
        set(&mut ii, 8, &block.vaccine);
        self.set_details(random, &mut ii, block);
        set(&mut ii, 15, lot(random, lots));
        set_places(random, &mut ii);
        let is_relaxed = random.percent(25);
        if is_relaxed {
            relax(random, &mut ii);
        }
        if is_relaxed || (block.indicator == "H" && random.percent(25)) {
            empty_some(random, &mut ii, lots);
        }
        self.lines.push(ii);
        let mut antigens: Vec<&(Text, usize)> = block.antigens.iter().collect();
        random.shuffle(&mut antigens);
        for (code, count) in antigens {
            self.lines
                .push(antigen_count(random, &block.uli, code, *count));
        }
    }

    /// Site, method, reason, dosage and its type, manufacturer.
    fn set_details(&self, random: &mut Random, ii: &mut Line, block: &Block) {
        let (site, method) = site_and_method(random);
        set(ii, 9, site);
        set(ii, 10, method);
        let reasons = self
            .world
            .good_with(random, 7, 3, &block.vaccine, block.asked);
        let reason = random.pick(&reasons).clone();
        set(ii, 11, written_reason(random, reason));
        set(ii, 12, random.pick(&DOSAGES));
        set(ii, 13, self.world.good_code(random, 5, block.asked));
        set(ii, 14, self.world.good_code(random, 4, block.asked));
    }

    /// An IN with its IA lines. Gives back its day.
    fn push_not_immunized(&mut self, random: &mut Random, uli: &[u8]) -> u32 {
        let day = *random.pick(&self.world.days);
        let mut line = record("IN", 8);
        set(&mut line, 3, uli);
        set(&mut line, 4, random.pick(&["A", "C", "D"]));
        set(&mut line, 5, format!("{day:08}"));
        let asked = Asked::on(day);
        set(&mut line, 6, self.world.good_code(random, 6, asked));
        set(&mut line, 7, random.pick(&["10", "1", "9999", "0000"]));
        set(&mut line, 8, random.pick(&["", "05", "K", "zZ"]));
        self.lines.push(line);
        for _ in 0..random.between(1, self.size.antigens.min(3)) {
            let mut line = record("IA", 4);
            set(&mut line, 3, uli);
            set(&mut line, 4, self.world.good_code(random, 2, asked));
            self.lines.push(line);
        }
        day
    }
}

/// A number up to the most, nothing with this chance in a hundred, mostly low.
fn count(random: &mut Random, most: usize, nothing: usize) -> usize {
    if random.percent(nothing) {
        return 0;
    }
    let highest = random.between(1, most);
    random.between(1, highest)
}

fn patient(random: &mut Random, uli: &[u8], birth: u32) -> Line {
    let mut line = record("IP", 27);
    set(&mut line, 3, uli);
    set(&mut line, 25, format!("{birth:08}"));
    if random.percent(50) {
        set(
            &mut line,
            8,
            random.pick(&["SMITH", "O'Neill", " ", "Rosso", "~ !"]),
        );
        set(&mut line, 9, random.pick(&["JOHN", "Chase", "-"]));
    }
    if random.percent(20) {
        let field = *random.pick(&[4, 5, 6, 7, 10, 11, 18, 24, 26, 27]);
        set(
            &mut line,
            field,
            random.pick(&["AB", "47 Sullivan Close", "20991231", "A"]),
        );
    }
    line
}

const DOSAGES: [&str; 12] = [
    "0.5",
    "1",
    "10.00",
    "0.01",
    "999999.99",
    "1.3",
    "000001",
    "0.10",
    "999999",
    "00.10",
    "5.0",
    "100000.0",
];

/// Lots that are easily taken for one another.
const LOTS: [&str; 16] = [
    "L1",
    "L2",
    "1",
    "01",
    "001",
    "l1",
    "L-1",
    "-",
    "--",
    "10",
    "0",
    "00",
    "AAAAAAAAAAAAAAAAAAAA",
    "AAAAAAAAAAAAAAAAAAAB",
    "Z9",
    "L1-",
];

/// A lot that the block has not yet.
fn lot(random: &mut Random, lots: &mut Vec<Text>) -> Text {
    let mut lot = random.pick(&LOTS).as_bytes().to_vec();
    while lots.contains(&lot) {
        lot = format!("L{}", random.below(100_000)).into_bytes();
    }
    lots.push(lot.clone());
    lot
}

fn site_and_method(random: &mut Random) -> (&'static str, &'static str) {
    match random.below(8) {
        0 => ("MO", "PO"),
        1 => ("NO", "IN"),
        _ => (*random.pick(&PLAIN_SITES), *random.pick(&PLAIN_METHODS)),
    }
}

/// Texts that are near to H.
pub const NEARLY_HISTORICAL: [&str; 6] = ["h", "HH", "H ", " H", "X", " "];

pub const PLAIN_SITES: [&str; 25] = [
    "LA", "LAF", "LAL", "LAU", "LDG", "LG", "LL", "LLL", "LLU", "LVG", "MS", "OTH", "RA", "RAF",
    "RAL", "RAU", "RDG", "RG", "RL", "RLL", "RLU", "RVG", "VE", "WO", "UNK",
];
pub const PLAIN_METHODS: [&str; 8] = ["G", "ID", "IM", "INF", "IV", "SC", "OTH", "UNK"];

/// A reason as submitters write it: with its zero, without, or with a blank.
fn written_reason(random: &mut Random, reason: Text) -> Text {
    match (random.below(3), &reason[..]) {
        (0, [b'0', digit]) => vec![*digit],
        (1, [b'0', digit]) => vec![b' ', *digit],
        _ => reason,
    }
}

pub fn antigen_count(random: &mut Random, uli: &[u8], code: &[u8], count: usize) -> Line {
    let mut line = record("IE", 5);
    set(&mut line, 3, uli);
    set(&mut line, 4, code);
    let width = random.between(1, 2);
    set(&mut line, 5, format!("{count:0width$}"));
    line
}

/// Fields 16 to 22 of an event that is not relaxed.
fn set_places(random: &mut Random, ii: &mut Line) {
    if random.percent(30) {
        set(ii, 18, "AB");
        set(ii, 19, random.pick(&["CA", "", "NA"]));
    }
    if random.percent(10) {
        let field = *random.pick(&[16, 17, 21, 22]);
        set(ii, field, random.pick(&["55", "899", "<13>", "NG"]));
    }
}

/// One of the four ways to a relaxed event.
pub fn relax(random: &mut Random, ii: &mut Line) {
    match random.below(4) {
        0 => set(ii, 5, "H"),
        1 => set(ii, 20, random.pick(&["NA", " ", "0"])),
        2 => set(ii, 18, random.pick(&["BC", "ab", " AB", "A", "ABC"])),
        _ => {
            set(ii, 18, "");
            set(ii, 19, random.pick(&["US", "CA", " "]));
        }
    }
}

/// Nothing in some of II 9 to 15, site with method and dosage with its type.
fn empty_some(random: &mut Random, ii: &mut Line, lots: &mut Vec<Text>) {
    for fields in [&[9, 10][..], &[11], &[12, 13], &[14]] {
        if random.percent(40) {
            fields.iter().for_each(|&field| set(ii, field, ""));
        }
    }
    if random.percent(40) && !lots.contains(&Vec::new()) {
        lots.push(Vec::new());
        set(ii, 15, "");
    }
}
