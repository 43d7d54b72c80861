//! Long lists in a draft: the antigens of an II, and the lots of a block.

use super::submission::{antigen_count, get, is, relax, renumber, set, Line};
use super::world::Text;
use crate::random::Random;

/// How long the lists of a file become.
#[derive(Clone, Copy, PartialEq)]
pub enum Length {
    /// About 16 members, where a check may turn from a scan to a sort.
    Few,
    Hundreds,
    /// As many as a sixteenth of the longest file holds.
    Sixteenth,
}

const SIXTEENTH: usize = super::FILE_MOST / 16;

/// About the bytes of an II with its first IE.
const II_BYTES: usize = 110;
/// About the bytes of an IE.
const IE_BYTES: usize = 30;

/// An antigen with its count.
type Given = (Text, usize);

/// What the IIs of a block have, one beside the other.
#[derive(Clone, Copy)]
enum Step {
    /// One or two antigens each, and as many lots as the length says.
    Lots,
    One,
    Same,
    FirstLong,
    FirstShort,
    /// The first has one over and over and then another, the others have the two.
    OverAndOver,
}

const STEPS: [Step; 6] = [
    Step::Lots,
    Step::One,
    Step::Same,
    Step::FirstLong,
    Step::FirstShort,
    Step::OverAndOver,
];

/// One or two II of a draft that has some become long blocks; plain ones break no
/// rule that the draft does not.
pub fn lengthen(random: &mut Random, length: Length, is_plain: bool, lines: &mut Vec<Line>) {
    let is_bare = !is_plain && random.percent(40);
    let mut heads: Vec<usize> = (0..lines.len())
        .filter(|&place| is(&lines[place], "II"))
        .collect();
    random.shuffle(&mut heads);
    heads.truncate(random.between(1, 2));
    heads.sort();
    let blocks = if is_plain {
        1
    } else {
        *random.pick(&[1, 1, 2, 3])
    };
    for &head in heads.iter().rev() {
        let writer = Writer {
            length,
            is_plain,
            is_bare,
            blocks: heads.len() * blocks,
            ..Writer::new(lines, head)
        };
        let end = head + 1 + writer.own.len();
        let long = writer.blocks(random, blocks);
        lines.splice(head..end, long);
    }
    renumber(random, lines);
    if is_bare {
        lines
            .iter_mut()
            .filter(|line| is(line, "IE"))
            .for_each(|ie| {
                set(ie, 2, "");
                set(ie, 3, "");
            });
    }
}

struct Writer {
    ip: Line,
    ii: Line,
    /// The II's own antigens, of which most are in the book.
    own: Vec<Given>,
    length: Length,
    is_plain: bool,
    is_bare: bool,
    /// The long blocks of the file.
    blocks: usize,
}

impl Writer {
    /// A writer of blocks like the II at this place.
    fn new(lines: &[Line], head: usize) -> Writer {
        let ip = lines[..head].iter().rfind(|line| is(line, "IP"));
        let own = lines[head + 1..]
            .iter()
            .take_while(|line| is(line, "IE"))
            .map(|line| (get(line, 4).to_vec(), 1))
            .collect();
        Writer {
            ip: ip.cloned().unwrap_or_default(),
            ii: lines[head].clone(),
            own,
            length: Length::Few,
            is_plain: false,
            is_bare: false,
            blocks: 1,
        }
    }

    /// Blocks after each other. Some name one event, some have an IP between them.
    fn blocks(&self, random: &mut Random, blocks: usize) -> Vec<Line> {
        let mut lines = Vec::new();
        for block in 0..blocks {
            let mut ii = self.ii.clone();
            match random.below(4) {
                _ if block == 0 => (),
                0 => set(&mut ii, 4, random.pick(&["A", "C", "D"])),
                1 => set(&mut ii, 6, random.pick(&["20200229", "19991231"])),
                2 => lines.push(self.ip.clone()),
                _ => (),
            }
            lines.extend(self.block(random, &ii));
        }
        lines
    }

    /// A block of IIs like this one, or more if one of them is in no block.
    fn block(&self, random: &mut Random, ii: &Line) -> Vec<Line> {
        if self.is_plain {
            return self.plain_block(random, ii);
        }
        let step = *random.pick(&STEPS);
        let style = random.below(STYLES);
        let (longest, immunizations) = self.sizes(random, step, style);
        let members = self.members(random, style, longest);
        let outside = random.percent(20).then(|| random.below(immunizations));
        let is_relaxed = random.percent(30);
        let mut lines = Vec::new();
        for (place, lot) in lots(random, immunizations).into_iter().enumerate() {
            let mut ii = with_lot(ii, &lot);
            if is_relaxed && random.percent(50) {
                relax(random, &mut ii);
            }
            if random.percent(if is_relaxed { 25 } else { 2 }) {
                set(&mut ii, 15, random.pick(&["", "", "", "L 1", "L_1"]));
            }
            if outside == Some(place) {
                leave_blocks(random, &mut ii);
            }
            lines.push(ii);
            let given = given(random, step, &members, place == 0);
            lines.extend(self.antigens(random, &given));
            if random.percent(4) {
                damage_antigen(random, &mut lines);
            }
        }
        lines
    }

    /// Different lots, each with the II's own antigens in another order.
    fn plain_block(&self, random: &mut Random, ii: &Line) -> Vec<Line> {
        let most = SIXTEENTH / (II_BYTES + IE_BYTES * self.own.len()) / self.blocks;
        let mut lines = Vec::new();
        for number in 0..self.long(random, II_BYTES).min(most) {
            lines.push(with_lot(ii, &name(0, number)));
            let mut given = self.own.clone();
            random.shuffle(&mut given);
            lines.extend(self.antigens(random, &given));
        }
        lines
    }

    /// The antigens of the longest II, and the IIs of the block.
    fn sizes(&self, random: &mut Random, step: Step, style: usize) -> (usize, usize) {
        let line = name(style, 1000).len() + if self.is_bare { 10 } else { 26 };
        let antigens = self.long(random, line);
        let immunizations = self.long(random, II_BYTES);
        match (step, self.length) {
            (Step::Lots, _) => (random.between(1, 2), immunizations),
            (Step::One, _) => (antigens, 1),
            (Step::Same | Step::FirstShort, Length::Sixteenth) => {
                let share = *random.pick(&[2, 3, 20, 100]);
                (antigens / share + 1, share)
            }
            (Step::Same | Step::FirstShort, _) => (antigens, random.between(2, 4)),
            (Step::FirstLong | Step::OverAndOver, Length::Sixteenth) => {
                (antigens / 2, immunizations / 2)
            }
            (Step::FirstLong | Step::OverAndOver, _) => (antigens, random.between(2, 20)),
        }
    }

    /// A number of lines of this many bytes.
    fn long(&self, random: &mut Random, bytes: usize) -> usize {
        match self.length {
            Length::Few => random.between(14, 20),
            Length::Hundreds => random.between(100, 500),
            Length::Sixteenth => 2 + SIXTEENTH / bytes / self.blocks,
        }
    }

    /// The antigens of a block: of the II's own, or of a style; some again.
    fn members(&self, random: &mut Random, style: usize, count: usize) -> Vec<Given> {
        let is_own = random.percent(30);
        let again = *random.pick(&[0, 0, 0, 1, 50, 99, 100]);
        let counts = *random.pick(&[1, 1, 2, 99]);
        let mut set: Vec<Given> = Vec::with_capacity(count);
        for number in 0..count {
            let count = random.between(1, counts);
            let given = match set.is_empty() {
                false if random.percent(again) => random.pick(&set).clone(),
                _ if is_own => (self.own[number % self.own.len()].0.clone(), 1),
                _ => (name(style, number), count),
            };
            let other = (given.0.clone(), count);
            set.push(if random.percent(10) { other } else { given });
        }
        if random.percent(70) {
            random.shuffle(&mut set);
        }
        set
    }

    /// The IE lines of an II, some counts with a zero before them.
    fn antigens(&self, random: &mut Random, given: &[Given]) -> Vec<Line> {
        let uli = get(&self.ii, 3);
        given
            .iter()
            .map(|(code, count)| antigen_count(random, uli, code, *count))
            .collect()
    }
}

fn with_lot(ii: &Line, lot: &[u8]) -> Line {
    let mut ii = ii.clone();
    set(&mut ii, 15, lot);
    ii
}

/// An antigen of the last II, or its count, becomes unsound.
fn damage_antigen(random: &mut Random, lines: &mut [Line]) {
    const UNSOUND: [(usize, &str); 8] = [
        (4, ""),
        (4, "A B"),
        (4, "AAAAAAAAAAAAAAAAAAAAA"),
        (5, ""),
        (5, "0"),
        (5, "00"),
        (5, "100"),
        (5, "x"),
    ];
    let antigens = lines.iter().rev().take_while(|line| is(line, "IE")).count();
    let place = lines.len() - 1 - random.below(antigens);
    let (field, text) = *random.pick(&UNSOUND);
    set(&mut lines[place], field, text);
}

/// What an II of a block has of the block's antigens.
fn given(random: &mut Random, step: Step, set: &[Given], is_first: bool) -> Vec<Given> {
    let whole = |random: &mut Random| match is_first {
        true => set.to_vec(),
        false => nearly(random, set),
    };
    let two = [&set[0], &set[set.len() - 1]].map(Given::clone);
    match (step, is_first) {
        (Step::FirstLong, false) | (Step::FirstShort, true) => vec![random.pick(set).clone()],
        (Step::OverAndOver, true) => {
            let mut given = vec![two[0].clone(); set.len()];
            given.push(two[1].clone());
            given
        }
        (Step::OverAndOver, false) => nearly(random, &two),
        _ => whole(random),
    }
}

/// The same set, mostly: in another order, with a member again, or with one more,
/// one less, or another count.
fn nearly(random: &mut Random, set: &[Given]) -> Vec<Given> {
    let mut given = set.to_vec();
    let place = random.below(given.len());
    match random.below(16) {
        0 => given.push(given[place].clone()),
        1 => given.push((given[place].0.clone(), random.between(1, 99))),
        2 => given.push((b"MORE".to_vec(), 1)),
        3 if given.len() > 1 => drop(given.swap_remove(place)),
        4 => given[place].1 = random.between(1, 99),
        5 => given[place] = given[0].clone(),
        _ => (),
    }
    if random.percent(60) {
        random.shuffle(&mut given);
    }
    given
}

/// The lots of a block: all different, all equal, or some again.
fn lots(random: &mut Random, immunizations: usize) -> Vec<Text> {
    let style = random.below(STYLES);
    let again = *random.pick(&[0, 0, 1, 10, 50, 100]);
    let mut lots: Vec<Text> = Vec::with_capacity(immunizations);
    for number in 0..immunizations {
        let lot = match lots.is_empty() {
            false if random.percent(again) => random.pick(&lots).clone(),
            _ => name(style, number),
        };
        lots.push(lot);
    }
    if random.percent(70) {
        random.shuffle(&mut lots);
    }
    lots
}

/// One of the fields that a block shares becomes unsound.
fn leave_blocks(random: &mut Random, ii: &mut Line) {
    let (field, text) = *random.pick(&[(3, "12345678"), (4, "X"), (6, "20230229"), (8, "A B")]);
    set(ii, field, text);
}

const STYLES: usize = 5;

/// A text that can be a lot and an antigen: short; of 20 bytes, the last or the
/// first of which differ; of one letter, the length of which differs; or of
/// letters in both cases.
fn name(style: usize, number: usize) -> Text {
    let text = match style {
        0 => format!("{number:X}"),
        1 => format!("{number:0>20}"),
        2 => format!("{number:A<20}"),
        3 => {
            let letter = (b'A' + (number / 20 % 26) as u8) as char;
            letter.to_string().repeat(1 + number % 20)
        }
        _ => (0..17)
            .map(|bit| if number >> bit & 1 == 1 { 'a' } else { 'A' })
            .collect(),
    };
    text.into_bytes()
}
