//! The tables of times, in Markdown.

use crate::measure::Times;
use bench::world::Size;
use differential::check::{Answer, FINDINGS};
use std::time::Duration;

/// A family with its times, the smallest size first; none for a size that was
/// left out.
pub struct Row {
    pub name: &'static str,
    /// What is in its inputs.
    pub about: &'static str,
    pub sizes: Vec<(Size, Option<Times>)>,
}

/// What stands for a time that was not taken.
pub const NONE: &str = "-";

/// Each family's inputs, and what both sides say of the largest, under these heads.
pub fn families(rows: &[Row], heads: [&str; 2]) -> String {
    let lines = rows.iter().map(|row| {
        let largest = row.sizes.iter().rev().find_map(|(_, times)| times.as_ref());
        vec![
            row.name.to_string(),
            row.about.to_string(),
            largest.map_or(NONE.to_string(), |times| times.said.clone()),
        ]
    });
    table(&["family", heads[0], heads[1]], lines)
}

/// The times of the largest size, and how the time for a byte grows up to it.
pub fn ratios(rows: &[Row]) -> String {
    let lines = rows.iter().map(|row| {
        let first = row.sizes.first().and_then(|(_, times)| times.as_ref());
        let last = row.sizes.last().and_then(|(_, times)| times.as_ref());
        let mut cells = vec![row.name.to_string()];
        cells.extend(last_cells(last));
        cells.extend(growth_cells(first, last, |times| times.product));
        cells.extend(growth_cells(first, last, |times| times.independent));
        cells
    });
    let (smallest, largest) = ends(rows);
    let head = [
        "family".to_string(),
        "bytes".to_string(),
        "product, ms".to_string(),
        "independent, ms".to_string(),
        "ratio".to_string(),
        format!("product, ns/byte at {smallest}"),
        format!("at {largest}"),
        "growth".to_string(),
        format!("independent, ns/byte at {smallest}"),
        format!("at {largest}"),
        "growth".to_string(),
    ];
    table(&head.each_ref().map(String::as_str), lines)
}

/// The times of every size, the product's and then the other's.
pub fn sizes(rows: &[Row]) -> String {
    let mut head = vec!["family".to_string()];
    if let Some(row) = rows.first() {
        head.extend(row.sizes.iter().map(|(size, _)| size.name()));
    }
    let head: Vec<&str> = head.iter().map(String::as_str).collect();
    let lines = rows.iter().map(|row| {
        let times = row.sizes.iter().map(|(_, times)| match times {
            Some(times) => format!("{} / {}", ms(times.product), ms(times.independent)),
            None => NONE.to_string(),
        });
        std::iter::once(row.name.to_string()).chain(times).collect()
    });
    table(&head, lines)
}

fn ends(rows: &[Row]) -> (String, String) {
    let name = |end: Option<&(Size, Option<Times>)>| end.map_or(String::new(), |it| it.0.name());
    let sizes = rows.first().map_or(&[][..], |row| &row.sizes);
    (name(sizes.first()), name(sizes.last()))
}

fn last_cells(last: Option<&Times>) -> [String; 4] {
    match last {
        None => [NONE; 4].map(str::to_string),
        Some(times) => [
            grouped(&times.bytes.to_string()),
            ms(times.product),
            ms(times.independent),
            short(times.product.as_secs_f64() / times.independent.as_secs_f64()),
        ],
    }
}

fn growth_cells(
    first: Option<&Times>,
    last: Option<&Times>,
    side: fn(&Times) -> Duration,
) -> [String; 3] {
    let for_a_byte = |times: &Times| side(times).as_secs_f64() * 1e9 / times.bytes as f64;
    let (first, last) = (first.map(for_a_byte), last.map(for_a_byte));
    let growth = first.zip(last).map(|(first, last)| last / first);
    [first, last, growth].map(|number| number.map_or(NONE.to_string(), short))
}

pub fn ms(time: Duration) -> String {
    short(time.as_secs_f64() * 1000.0)
}

/// Three digits that count, at least.
pub fn short(number: f64) -> String {
    match number {
        _ if number < 1.0 => format!("{number:.3}"),
        _ if number < 10.0 => format!("{number:.2}"),
        _ if number < 100.0 => format!("{number:.1}"),
        _ => grouped(&format!("{number:.0}")),
    }
}

/// A comma before every third digit from the end.
pub fn grouped(digits: &str) -> String {
    let groups = digits.as_bytes().rchunks(3).rev();
    let groups: Vec<_> = groups.map(String::from_utf8_lossy).collect();
    groups.join(",")
}

pub fn said(answer: &Answer) -> String {
    if answer.answer == FINDINGS {
        return format!("{} findings", grouped(&answer.findings.to_string()));
    }
    let parts = [
        (answer.added, "added"),
        (answer.changed, "changed"),
        (answer.deleted, "deleted"),
        (answer.not_immunized, "IN"),
    ];
    let parts: Vec<String> = parts
        .iter()
        .filter(|(number, _)| *number > 0)
        .map(|(number, name)| format!("{} {name}", grouped(&number.to_string())))
        .collect();
    format!("accepted: {}", parts.join(", "))
}

pub fn written(lines: usize, chart: usize) -> String {
    let (lines, chart) = (lines.to_string(), chart.to_string());
    format!("{} lines from {} bytes", grouped(&lines), grouped(&chart))
}

pub fn table(head: &[&str], lines: impl Iterator<Item = Vec<String>>) -> String {
    let mut text = format!("| {} |\n|{}\n", head.join(" | "), "---|".repeat(head.len()));
    for line in lines {
        text += &format!("| {} |\n", line.join(" | "));
    }
    text
}
