//! Lines and fields of files of any shape; what the questions about them reach;
//! and that every slip of a reader shows in its hash.

use differential::case::{Case, Verdict};
use differential::driver::Run;
use differential::fields::{answers, Document, Line, Reader, Text};
use differential::generate;
use differential::program::Program;
use std::collections::BTreeSet;

const FILE: &[u8] = b"IV|7.2|\r\nA||x\n\r|\r\r\n\nB|C|";

fn text(start: usize, length: usize) -> Option<Text> {
    Some(Text { start, length })
}

#[test]
fn a_field_is_a_text_that_a_pipe_ends_within_its_line() {
    let mut file = Document::of(FILE);
    let there = [
        (1, 1, 0, 2),
        (1, 2, 3, 3),
        (2, 1, 9, 1),
        (2, 2, 11, 0),
        (3, 1, 14, 1),
        (5, 1, 20, 1),
        (5, 2, 22, 1),
    ];
    for line in 0..8 {
        for field in 0..5 {
            let is = there.iter().find(|t| (t.0, t.1) == (line, field));
            let must = is.and_then(|t| text(t.2, t.3));
            assert_eq!(file.field(line, field), must, "{line} {field}");
        }
    }
    assert_eq!(file.field(usize::MAX, 1), None);
    assert_eq!(file.field(1, usize::MAX), None);
    assert_eq!(Document::of(b"").field(1, 1), None);
}

#[test]
fn fields_are_read_from_any_start() {
    let mut file = Document::of(FILE);
    assert_eq!(file.field_from(1, 1), text(1, 1));
    assert_eq!(file.field_from(2, 1), text(2, 0));
    assert_eq!(file.field_from(7, 1), None);
    assert_eq!(file.field_from(8, 1), None);
    assert_eq!(file.field_from(22, 1), text(22, 1));
    assert_eq!(file.field_from(23, 1), text(23, 0));
    for start in [24, 25, usize::MAX] {
        assert_eq!(file.field_from(start, 1), None);
    }
}

#[test]
fn lines_are_counted_from_any_start() {
    let mut file = Document::of(FILE);
    let mut from = |number, start, line| {
        let line = file.line_from(Line { number, start }, line);
        (line.number, line.start)
    };
    let starts = [0, 9, 14, 19, 20, 24, 24];
    for (place, start) in starts.into_iter().enumerate() {
        assert_eq!(from(1, 0, place + 1), (place + 1, start));
    }
    assert_eq!(from(2, 9, 4), (4, 19));
    assert_eq!(from(4, 19, 2), (4, 19));
    assert_eq!(from(4, 99, 4), (4, 99));
    assert_eq!(from(70, 8, 71), (71, 9));
    assert_eq!(from(0, 3, 2), (2, 14));
    assert_eq!(from(0, 0, usize::MAX), (usize::MAX, 24));
    assert_eq!(from(usize::MAX - 1, 0, usize::MAX), (usize::MAX, 9));
    assert_eq!(from(1, 99, 2), (2, 99));
}

/// A reader with one slip.
struct Slipping<'a> {
    file: &'a [u8],
    right: Document<'a>,
    slip: &'a str,
}

const SLIPS: [&str; 13] = [
    "a CR ends a line",
    "the bytes after the last LF are no line",
    "the text after the last pipe is a field",
    "field 0 is field 1",
    "line 0 is line 1",
    "an empty field is not there",
    "a field may end in the next line",
    "a field's number has 32 bits",
    "a line's number has 32 bits",
    "it goes back",
    "a line that is not there starts one past the end",
    "a line that is not there keeps the number before",
    "a start within a line means the line's start",
];

impl Slipping<'_> {
    fn has_feed(&self, start: usize) -> bool {
        self.file
            .get(start..)
            .is_some_and(|rest| rest.contains(&b'\n'))
    }

    fn line_start(&self, place: usize) -> usize {
        let before = &self.file[..place.min(self.file.len())];
        let feed = before.iter().rposition(|&byte| byte == b'\n');
        feed.map_or(0, |feed| feed + 1)
    }
}

impl Reader for Slipping<'_> {
    fn field(&mut self, line: usize, field: usize) -> Option<Text> {
        match self.slip {
            "line 0 is line 1" => self.right.field(line.max(1), field),
            _ => self.right.field(line, field),
        }
    }

    fn line_from(&mut self, from: Line, line: usize) -> Line {
        let right = self.right.line_from(from, line);
        let is_gone = line > from.number && right.start == self.file.len();
        match self.slip {
            "a CR ends a line" if line > from.number => {
                let rest = self.file.get(from.start..).unwrap_or_default();
                let ends = (0..rest.len()).filter(|&at| b"\r\n".contains(&rest[at]));
                let end = ends.take(line - from.number).nth(line - from.number - 1);
                Line {
                    start: end.map_or(self.file.len(), |end| from.start + end + 1),
                    ..right
                }
            }
            "a line's number has 32 bits" => {
                let cut = |number| number & 0xFFFF_FFFF;
                let from = Line {
                    number: cut(from.number),
                    ..from
                };
                let found = self.right.line_from(from, cut(line));
                Line {
                    start: found.start,
                    ..right
                }
            }
            "it goes back" if line < from.number => Line {
                number: line,
                start: from.start,
            },
            "a line that is not there starts one past the end" if is_gone => Line {
                start: right.start + 1,
                ..right
            },
            "a line that is not there keeps the number before" if is_gone => Line {
                number: line - 1,
                ..right
            },
            _ => right,
        }
    }

    fn field_from(&mut self, start: usize, field: usize) -> Option<Text> {
        let right = self.right.field_from(start, field);
        match self.slip {
            "the bytes after the last LF are no line" if !self.has_feed(start) => None,
            "the text after the last pipe is a field" if right.is_none() && field > 1 => {
                let before = self.right.field_from(start, field - 1)?;
                text(before.start + before.length + 1, 0)
            }
            "field 0 is field 1" => self.right.field_from(start, field.max(1)),
            "an empty field is not there" => right.filter(|text| text.length > 0),
            "a field may end in the next line" if right.is_none() && field > 0 => {
                let rest = self.file.get(start..).unwrap_or_default();
                let mut pipes = (0..rest.len()).filter(|&at| rest[at] == b'|');
                let last = pipes.by_ref().nth(field.min(99) - 1)?;
                text(start, last)
            }
            "a field's number has 32 bits" => self.right.field_from(start, field & 0xFFFF_FFFF),
            "a start within a line means the line's start" => {
                let start = self.line_start(start);
                self.right.field_from(start, field)
            }
            _ => right,
        }
    }
}

#[test]
fn every_slip_shows() {
    let cases: Vec<Case> = (200..1200)
        .map(|number| generate::case(5, number))
        .collect();
    for slip in SLIPS {
        let shows = |case: &&Case| {
            let file = &case.file[..];
            let right = Document::of(file);
            let slipped = answers(file, &mut Slipping { file, right, slip });
            slipped != case.verdict().fields
        };
        let small = cases.iter().filter(|case| case.file.len() < 10_000);
        assert!(small.clone().any(|case| shows(&case)), "{slip}");
    }
}

/// Notes what is asked and what comes of it.
struct Noting<'a> {
    file: &'a [u8],
    right: Document<'a>,
    met: &'a mut BTreeSet<&'static str>,
}

impl Noting<'_> {
    fn note_place(&mut self, start: usize) {
        let before = start.checked_sub(1).and_then(|at| self.file.get(at));
        self.met.insert(match (before, self.file.get(start)) {
            (Some(b'\r'), Some(b'\n')) => "between CR and LF",
            (None | Some(b'\n'), Some(_)) => "the start of a line",
            (_, Some(_)) => "within a line",
            _ if start == self.file.len() => "the end",
            _ if start < 1 << 32 => "past the end",
            _ => "far past the end",
        });
    }

    fn note_field(&mut self, found: Option<Text>) {
        self.met.insert(match found {
            None => "no field",
            Some(Text { length: 0, .. }) => "an empty field",
            Some(_) => "a field",
        });
    }
}

impl Reader for Noting<'_> {
    fn field(&mut self, line: usize, field: usize) -> Option<Text> {
        let found = self.right.field(line, field);
        self.note_field(found);
        found
    }

    fn line_from(&mut self, from: Line, line: usize) -> Line {
        self.note_place(from.start);
        let found = self.right.line_from(from, line);
        self.met.insert(match line {
            _ if line < from.number => "a line before",
            _ if line == from.number => "the line itself",
            usize::MAX => "the last number",
            _ if line - from.number > 1 << 32 => "a line far on",
            _ if found.start == self.file.len() => "a line that is not there",
            _ => "a line",
        });
        found
    }

    fn field_from(&mut self, start: usize, field: usize) -> Option<Text> {
        self.note_place(start);
        let found = self.right.field_from(start, field);
        self.note_field(found);
        let is_last = self
            .file
            .get(start..)
            .is_some_and(|rest| !rest.contains(&b'\n'));
        if is_last && found.is_some() {
            self.met.insert("a field of a line without LF");
        }
        found
    }
}

#[test]
fn the_questions_reach_every_place() {
    let mut met = BTreeSet::new();
    for number in 200..1200 {
        let file = generate::case(5, number).file;
        let right = Document::of(&file);
        let mut noting = Noting {
            file: &file,
            right,
            met: &mut met,
        };
        answers(&file, &mut noting);
    }
    assert_eq!(met.len(), 16, "{met:?}");
}

/// The batch program of this crate, its output sent through a script of sed.
fn batch_program(script: &str) -> Program {
    let program = env!("CARGO_BIN_EXE_differential");
    let command = format!("'{program}' 1 1 --batch | sed '{script}'");
    Program {
        command: ["sh", "-c", &command].map(str::to_string).to_vec(),
    }
}

#[test]
fn a_wrong_hash_is_a_difference() {
    let cases: Vec<Case> = (200..230).map(|number| generate::case(5, number)).collect();
    let must: Vec<Option<Verdict>> = cases.iter().map(|case| Some(case.verdict())).collect();
    assert_eq!(batch_program("").run(&cases), must);
    let said = batch_program("s/[0-7]$/8/;t;s/.$/0/").run(&cases);
    for (must, said) in must.into_iter().zip(said) {
        let (must, said) = (must.unwrap(), said.unwrap());
        assert_ne!(must, said);
        let fields = must.fields;
        assert_eq!(must, Verdict { fields, ..said });
    }
}

#[test]
fn a_run_counts_a_wrong_hash_as_failed() {
    let counts = |script: &str| {
        let mut run = Run::new(5);
        run.against::<Case>(&batch_program(script), 12);
        (run.passed, run.failed)
    };
    assert_eq!(counts(""), (12, 0));
    let last_of_first = "1{s/[0-7]$/8/;t;s/.$/0/}";
    assert_eq!(counts(last_of_first).1, 1);
}
