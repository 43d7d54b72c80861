//! What the cases of a run reach: answers, causes, (kind, field, rule) triples,
//! the ends of codes and pairs, rules judged over long lists, and what the writer
//! meets.

mod ends;
mod lists;
mod writings;

use crate::case::writing::WriteCase;
use crate::case::{Case, Outcome};
use crate::check::shape::Kind;
use crate::check::{self, Finding};
use ends::{Row, ENDS};
use std::collections::BTreeMap;

pub type Triple = (Kind, u8, u8);

#[derive(Default)]
pub struct Coverage {
    answers: [usize; 8],
    causes: [usize; 8],
    triples: BTreeMap<Triple, usize>,
    ends: BTreeMap<Row, usize>,
    lists: BTreeMap<lists::Row, usize>,
    writings: BTreeMap<writings::Row, usize>,
}

/// The rules that document 01 allows at each field.
const POSSIBLE: [(Kind, u8, &[u8]); 35] = [
    (Kind::IV, 2, &[1, 3]),
    (Kind::IH, 2, &[1, 2]),
    (Kind::IH, 3, &[1, 2]),
    (Kind::IP, 2, &[1, 2, 7]),
    (Kind::IP, 3, &[1, 2]),
    (Kind::IP, 25, &[1, 2, 8]),
    (Kind::II, 2, &[1, 2, 7]),
    (Kind::II, 3, &[1, 2, 6]),
    (Kind::II, 4, &[1, 2, 16, 17, 18]),
    (Kind::II, 5, &[2]),
    (Kind::II, 6, &[1, 2, 8]),
    (Kind::II, 8, &[1, 2, 4, 5, 13, 15]),
    (Kind::II, 9, &[1, 2, 4, 9, 10]),
    (Kind::II, 10, &[1, 2, 4, 9, 10]),
    (Kind::II, 11, &[1, 2, 4, 5, 11]),
    (Kind::II, 12, &[1, 2, 10]),
    (Kind::II, 13, &[1, 2, 4, 5, 10]),
    (Kind::II, 14, &[1, 2, 4, 5]),
    (Kind::II, 15, &[1, 2, 14]),
    (Kind::IE, 2, &[1, 2, 7]),
    (Kind::IE, 3, &[1, 2, 6]),
    (Kind::IE, 4, &[1, 2, 4, 5, 11, 12]),
    (Kind::IE, 5, &[1, 2]),
    (Kind::IN, 2, &[1, 2, 7]),
    (Kind::IN, 3, &[1, 2, 6]),
    (Kind::IN, 4, &[1, 2]),
    (Kind::IN, 5, &[1, 2, 8]),
    (Kind::IN, 6, &[1, 2, 4, 5]),
    (Kind::IN, 7, &[1, 2]),
    (Kind::IN, 8, &[2]),
    (Kind::IA, 2, &[1, 2, 7]),
    (Kind::IA, 3, &[1, 2, 6]),
    (Kind::IA, 4, &[1, 2, 4, 5]),
    (Kind::IF, 2, &[1, 2]),
    (Kind::IF, 3, &[1]),
];

/// The triples that are possible by document 01.
pub fn possible() -> impl Iterator<Item = Triple> {
    POSSIBLE
        .iter()
        .flat_map(|&(kind, field, rules)| rules.iter().map(move |&rule| (kind, field, rule)))
}

impl Coverage {
    pub fn add(&mut self, case: &Case, outcome: &Outcome) {
        self.answers[outcome.answer.answer as usize] += 1;
        self.causes[outcome.answer.cause as usize] += 1;
        let answer = outcome.answer.answer;
        if !matches!(answer, check::ACCEPTED | check::FINDINGS | check::FULL) {
            return;
        }
        let findings = check::all_findings(case.today, &case.file, &case.book, &case.ledger);
        self.add_findings(case, &findings);
        self.add_ends(case, answer == check::ACCEPTED);
        for row in lists::rows(case, &findings) {
            *self.lists.entry(row).or_default() += 1;
        }
    }

    /// Each row counts once a case.
    pub fn add_writing(&mut self, case: &WriteCase) {
        for row in writings::rows(case) {
            *self.writings.entry(row).or_default() += 1;
        }
    }

    /// Each row counts once a case.
    fn add_ends(&mut self, case: &Case, is_accepted: bool) {
        for row in ends::rows(case, is_accepted) {
            *self.ends.entry(row).or_default() += 1;
        }
    }

    /// Each triple counts once a case.
    fn add_findings(&mut self, case: &Case, findings: &[Finding]) {
        for triple in triples(case, findings) {
            *self.triples.entry(triple).or_default() += 1;
        }
    }

    /// What the writer may meet and no case reached.
    pub fn missing_of_writer(&self) -> Vec<String> {
        let missing = writings::possible().into_iter();
        let missing = missing.filter(|row| !self.writings.contains_key(row));
        missing.map(|row| row.to_string()).collect()
    }

    pub fn print_writings(&self) {
        let rows = writings::possible();
        for row in &rows {
            let count = self.writings.get(row).copied().unwrap_or(0);
            println!("write, {row}: {count}");
        }
        let reached = rows.len() - self.missing_of_writer().len();
        println!("{reached} of {} of the writer reached", rows.len());
    }

    /// The answers, causes, triples, ends and lists that no case reached.
    pub fn missing(&self) -> Vec<String> {
        let answers = (0..8).filter(|&answer| self.answers[answer] == 0);
        let causes = (1..8).filter(|&cause| self.causes[cause] == 0);
        let triples = possible().filter(|triple| !self.triples.contains_key(triple));
        let mut missing: Vec<String> = answers.map(|answer| format!("answer {answer}")).collect();
        missing.extend(causes.map(|cause| format!("cause {cause}")));
        missing.extend(triples.map(named));
        let ends = ends::possible().into_iter();
        let ends = ends.filter(|&row| self.of_ends(row) == 0);
        missing.extend(ends.map(|row| row.to_string()));
        let lists = lists::possible().filter(|&row| self.of_lists(row) == 0);
        missing.extend(lists.map(|row| row.to_string()));
        missing
    }

    pub fn print(&self) {
        println!("answers: {}", counts(&self.answers, 0));
        println!("causes: {}", counts(&self.causes, 1));
        let mut reached = 0;
        for triple in possible() {
            let count = self.triples.get(&triple).copied().unwrap_or(0);
            reached += usize::from(count > 0);
            println!("{}: {count}", named(triple));
        }
        println!("{reached} of {} triples reached", possible().count());
        for triple in self
            .triples
            .keys()
            .filter(|&&triple| possible().all(|other| other != triple))
        {
            println!("impossible by document 01: {}", named(*triple));
        }
        self.print_ends();
        self.print_lists();
    }

    fn print_ends(&self) {
        for (place, indicator) in ends::places() {
            let of = |end| self.of_ends(Row::Ends(place, indicator, end));
            let words = ENDS.map(|end| format!("{end} {}", of(end)));
            println!("{place} ends, {indicator}: {}", words.join(", "));
        }
        for row in ends::others() {
            println!("{row}: {}", self.of_ends(row));
        }
        let rows = ends::possible();
        let reached = rows.iter().filter(|&&row| self.of_ends(row) > 0).count();
        println!("{reached} of {} ends reached", rows.len());
    }

    fn of_ends(&self, row: Row) -> usize {
        self.ends.get(&row).copied().unwrap_or(0)
    }

    fn print_lists(&self) {
        for row in lists::possible() {
            println!("{row} {}", self.of_lists(row));
        }
        let reached = lists::possible().filter(|&row| self.of_lists(row) > 0);
        let (reached, rows) = (reached.count(), lists::possible().count());
        println!("{reached} of {rows} long lists reached");
    }

    fn of_lists(&self, row: lists::Row) -> usize {
        self.lists.get(&row).copied().unwrap_or(0)
    }
}

fn named((kind, field, rule): Triple) -> String {
    format!("{kind:?} {field} rule {rule}")
}

/// The triples of a case, each once.
fn triples(case: &Case, findings: &[Finding]) -> Vec<Triple> {
    let kinds = kinds(&case.file);
    let triple = |finding: &Finding| {
        (
            kinds[finding.line as usize - 1],
            finding.field,
            finding.rule,
        )
    };
    let mut triples: Vec<Triple> = findings.iter().map(triple).collect();
    triples.sort_unstable();
    triples.dedup();
    triples
}

/// The record types of the lines of a file of good shape.
fn kinds(file: &[u8]) -> Vec<Kind> {
    let lines = file.split_inclusive(|&byte| byte == b'\n');
    lines
        .map(|line| Kind::of_line(line).expect("a file of good shape"))
        .collect()
}

fn counts(counts: &[usize], first: usize) -> String {
    let words: Vec<String> = (first..counts.len())
        .map(|number| format!("{number}: {}", counts[number]))
        .collect();
    words.join(", ")
}
