//! The limits of families: how the product's time for a byte may grow, how long it
//! may take at full size, and how often it may take the independent one's time.

use crate::measure::Times;
use crate::table::{self, Row, NONE};
use std::time::Duration;

pub struct Limits {
    /// The time for a byte at the largest size over that at the smallest is at most
    /// this.
    growth: f64,
    /// The largest size takes at most this.
    time: Duration,
    /// The largest size takes at most so often the independent implementation's
    /// time.
    ratio: f64,
}

/// Those of the check on files with long lists.
pub const OF_LISTS: Limits = Limits {
    growth: 2.0,
    time: Duration::from_secs(1),
    ratio: f64::INFINITY,
};

/// Those of the writer.
pub const OF_WRITER: Limits = Limits {
    growth: 1.3,
    time: Duration::from_secs(1),
    ratio: 2.0,
};

/// A size that is expected to take longer is left out, and is over the limit.
pub const EXPECTED_MOST: Duration = Duration::from_secs(20);

/// The product's time for a byte at each size and its growth, and at the largest
/// size the time and its ratio to the independent implementation's.
pub fn table(rows: &[Row]) -> String {
    let mut head = vec!["family".to_string(), "bytes".to_string()];
    if let Some(row) = rows.first() {
        let sizes = row.sizes.iter().map(|(size, _)| size.name());
        head.extend(sizes.map(|size| format!("ns/byte at {size}")));
    }
    head.extend(["growth", "ms", "ratio"].map(str::to_string));
    let head: Vec<&str> = head.iter().map(String::as_str).collect();
    table::table(&head, rows.iter().map(cells))
}

fn cells(row: &Row) -> Vec<String> {
    let last = last(row);
    let or_none = |text: Option<String>| text.unwrap_or(NONE.to_string());
    let mut cells = vec![
        row.name.to_string(),
        or_none(last.map(|times| table::grouped(&times.bytes.to_string()))),
    ];
    let sizes = row.sizes.iter().map(|(_, times)| times.as_ref());
    cells.extend(sizes.map(|times| or_none(times.map(for_a_byte).map(table::short))));
    cells.push(or_none(growth(row).map(table::short)));
    cells.push(or_none(last.map(|times| table::ms(times.product))));
    cells.push(or_none(last.map(ratio).map(table::short)));
    cells
}

/// What is over a limit, or was left out.
pub fn over(row: &Row, limits: &Limits) -> Vec<String> {
    let name = row.name;
    let (Some(growth), Some(last)) = (growth(row), last(row)) else {
        return vec![format!("{name}: left out, so over the limits")];
    };
    let mut over = Vec::new();
    if growth > limits.growth {
        let growth = table::short(growth);
        over.push(format!("{name}: growth {growth}, over {}", limits.growth));
    }
    if last.product > limits.time {
        let (time, most) = (table::ms(last.product), table::ms(limits.time));
        over.push(format!("{name}: {time} ms, over {most}"));
    }
    if ratio(last) > limits.ratio {
        let ratio = table::short(ratio(last));
        over.push(format!("{name}: ratio {ratio}, over {}", limits.ratio));
    }
    over
}

fn ratio(times: &Times) -> f64 {
    times.product.as_secs_f64() / times.independent.as_secs_f64()
}

fn last(row: &Row) -> Option<&Times> {
    row.sizes.last().and_then(|(_, times)| times.as_ref())
}

fn growth(row: &Row) -> Option<f64> {
    let first = row.sizes.first().and_then(|(_, times)| times.as_ref());
    Some(for_a_byte(last(row)?) / for_a_byte(first?))
}

/// The product's nanoseconds for a byte.
fn for_a_byte(times: &Times) -> f64 {
    times.product.as_secs_f64() * 1e9 / times.bytes as f64
}
