//! A draft as bytes, and damage to its shape.

use super::submission::Line;
use super::world::Text;
use crate::random::Random;

/// The text of a line and its ending.
pub type Written = (Text, &'static [u8]);

const LF: &[u8] = b"\n";
const CR_LF: &[u8] = b"\r\n";

/// Each field is followed by a pipe. Endings are all alike or mixed.
pub fn written(random: &mut Random, lines: &[Line]) -> Vec<Written> {
    let style = random.below(10);
    lines
        .iter()
        .map(|line| (text(line), ending(random, style)))
        .collect()
}

fn text(line: &Line) -> Text {
    let mut text = line.join(&b'|');
    text.push(b'|');
    text
}

fn ending(random: &mut Random, style: usize) -> &'static [u8] {
    match style {
        0 | 1 => CR_LF,
        2 if random.percent(50) => CR_LF,
        _ => LF,
    }
}

pub fn file(lines: &[Written]) -> Text {
    lines
        .iter()
        .flat_map(|(text, ending)| text.iter().chain(ending.iter()).copied())
        .collect()
}

/// Damage to the shape of one line or of the order of lines.
pub fn damage(random: &mut Random, lines: &mut Vec<Written>) {
    if lines.is_empty() {
        return;
    }
    let (place, other) = (random.below(lines.len()), random.below(lines.len()));
    match random.below(12) {
        0 => no_line_feed(random, lines),
        1 | 2 => wrong_byte(random, &mut lines[place]),
        3 => no_last_pipe(random, &mut lines[place]),
        4 => wrong_type(random, &mut lines[place].0),
        5 => wrong_count(random, &mut lines[place].0),
        6 => drop(lines.remove(place)),
        7 => lines.swap(place, other),
        8 => insert_line(random, lines),
        9 => lines.truncate(place),
        10 => more_after_footer(random, lines),
        _ => drop_run(random, lines),
    }
}

/// The last line loses its LF, or the file ends within a line.
fn no_line_feed(random: &mut Random, lines: &mut Vec<Written>) {
    if random.percent(40) {
        lines.truncate(random.between(1, lines.len()));
    }
    let last = lines.len() - 1;
    let (text, ending) = &mut lines[last];
    *ending = if random.percent(50) { b"" } else { b"\r" };
    if random.percent(30) {
        text.truncate(random.below(text.len() + 1));
    }
}

fn wrong_byte(random: &mut Random, line: &mut Written) {
    let byte = *random.pick(&[31, 127, 128, 255, 0, 9, 13, 13, 10, 32, 126]);
    let place = random.below(line.0.len() + 1);
    match random.below(4) {
        0 => line.1 = b"\r\r\n",
        1 if place < line.0.len() => line.0[place] = byte,
        2 => line.0.push(byte),
        _ => line.0.insert(place, byte),
    }
}

fn no_last_pipe(random: &mut Random, line: &mut Written) {
    match random.below(4) {
        0 => line.0.clear(),
        1 => line.0.push(*random.pick(b"x 0")),
        2 => line.0.extend(b"||x"),
        _ => drop(line.0.pop()),
    }
}

fn wrong_type(random: &mut Random, text: &mut Text) {
    const TYPES: [&str; 20] = [
        "ii", "I", "IX", "", "IVV", " IV", "IV ", "1I", "Iv", "I1", "XX", "IG", "IP ", "IV", "IH",
        "IP", "II", "IE", "IN", "IA",
    ];
    let rest: Text = text
        .iter()
        .copied()
        .skip_while(|&byte| byte != b'|')
        .collect();
    *text = random.pick(&TYPES).as_bytes().to_vec();
    text.extend(rest);
}

fn wrong_count(random: &mut Random, text: &mut Text) {
    let pipes: Vec<usize> = (0..text.len())
        .filter(|&place| text[place] == b'|')
        .collect();
    if random.percent(50) || pipes.is_empty() {
        text.push(b'|');
    } else {
        text.remove(*random.pick(&pipes));
    }
}

/// A record with nothing in its fields.
fn bare(random: &mut Random) -> Text {
    const COUNTS: [(&str, usize); 8] = [
        ("IV", 2),
        ("IH", 3),
        ("IP", 27),
        ("II", 22),
        ("IE", 5),
        ("IN", 8),
        ("IA", 4),
        ("IF", 3),
    ];
    let (kind, count) = *random.pick(&COUNTS);
    let mut text = kind.as_bytes().to_vec();
    text.resize(text.len() + count, b'|');
    text
}

fn insert_line(random: &mut Random, lines: &mut Vec<Written>) {
    let line = if random.percent(50) {
        random.pick(lines).clone()
    } else {
        (bare(random), LF)
    };
    lines.insert(random.between(0, lines.len()), line);
}

fn more_after_footer(random: &mut Random, lines: &mut Vec<Written>) {
    let text = match random.below(4) {
        0 => Vec::new(),
        1 => bare(random),
        2 => b" ".to_vec(),
        _ => random.pick(lines).0.clone(),
    };
    let ending = *random.pick(&[LF, LF, CR_LF, b""]);
    lines.push((text, ending));
}

fn drop_run(random: &mut Random, lines: &mut Vec<Written>) {
    let from = random.below(lines.len());
    let to = random.between(from, lines.len());
    lines.drain(from..to);
}

/// Lines that are hardly a submission.
pub fn soup(random: &mut Random) -> Text {
    const BITS: [&str; 18] = [
        "IV|7.2|", "IH|10|1|", "IF|0|0|", "IV|", "|", "II", "IP|1|", "\n", "\n", "\r\n", "\r", "",
        "IF|||", "IV||", "IH|||", " ", "\u{1}", "\u{7f}",
    ];
    (0..random.below(12))
        .flat_map(|_| random.pick(&BITS).bytes())
        .collect()
}
