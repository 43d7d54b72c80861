//! Measures the product's check and its writer against the independent implementation
//! of tests/differential, both in this process, and prints the tables in Markdown.
//!
//! `bench [--quick | --limits] [--only WORD] [--limit SECONDS] [--date DATE] [--product NAME]`:
//! quick is two small sizes and one run; limits holds the families with long lists and
//! those of the writer to their limits; WORD leaves only the families whose names have it; a size that is
//! expected to take longer than the limit is left out; the page says the date, and
//! NAME for the product's version.

mod clock;
mod limits;
mod measure;
mod page;
mod product;
mod table;

use bench::chart_families::{self, ChartFamily};
use bench::families::{self, Family};
use bench::world::Size;
use differential::write::WRITTEN;
use measure::Times;
use std::process::ExitCode;
use std::time::Duration;
use table::Row;

const USAGE: &str =
    "bench [--quick | --limits] [--only WORD] [--limit SECONDS] [--date DATE] [--product NAME]";

/// The product's check needs about 3.5 MB of stack.
const STACK: usize = 16 << 20;

/// The runs on the smallest file.
const SMALL_RUNS: usize = 101;

struct Plan {
    sizes: &'static [usize],
    runs: usize,
    is_of_limits: bool,
    only: String,
    limit: Duration,
    date: String,
    product: String,
}

/// What is printed, and what is over its limit.
struct Report {
    text: String,
    over: Vec<String>,
}

fn main() -> ExitCode {
    let Some(plan) = plan() else {
        eprintln!("{USAGE}");
        return ExitCode::from(2);
    };
    let thread = std::thread::Builder::new()
        .stack_size(STACK)
        .spawn(move || report(&plan));
    match thread.map(|thread| thread.join()) {
        Ok(Ok(Ok(report))) => {
            print!("{}", report.text);
            report.over.iter().for_each(|over| eprintln!("{over}"));
            match report.over.is_empty() {
                true => ExitCode::SUCCESS,
                false => ExitCode::FAILURE,
            }
        }
        Ok(Ok(Err(difference))) => {
            eprintln!("{difference}");
            ExitCode::FAILURE
        }
        _ => ExitCode::FAILURE,
    }
}

fn plan() -> Option<Plan> {
    let mut plan = Plan {
        sizes: &[16, 8, 4, 2, 1],
        runs: 7,
        is_of_limits: false,
        only: String::new(),
        limit: Duration::from_secs(900),
        date: String::new(),
        product: String::new(),
    };
    let mut words = std::env::args().skip(1);
    while let Some(word) = words.next() {
        match word.as_str() {
            "--quick" => (plan.sizes, plan.runs) = (&[64, 16], 1),
            "--limits" => {
                plan.is_of_limits = true;
                (plan.sizes, plan.runs) = (&[16, 4, 1], 5);
                plan.limit = limits::EXPECTED_MOST;
            }
            "--only" => plan.only = words.next()?,
            "--limit" => plan.limit = Duration::from_secs(words.next()?.parse().ok()?),
            "--date" => plan.date = words.next()?,
            "--product" => plan.product = words.next()?,
            _ => return None,
        }
    }
    Some(plan)
}

/// The tables; or the family, the size and the difference of the two sides.
fn report(plan: &Plan) -> Result<Report, String> {
    let is_asked = |name: &str| name.contains(&plan.only);
    let checks = families::all()
        .into_iter()
        .filter(|family| is_asked(family.name))
        .filter(|family| family.has_lists || !plan.is_of_limits)
        .map(|family| checks_row(plan, &family));
    let checks: Vec<Row> = checks.collect::<Result<_, String>>()?;
    let writings = chart_families::all()
        .into_iter()
        .filter(|family| is_asked(family.name))
        .map(|family| writings_row(plan, &family));
    let writings: Vec<Row> = writings.collect::<Result<_, String>>()?;
    if plan.is_of_limits {
        let over = |rows: &[Row], limits| -> Vec<String> {
            rows.iter()
                .flat_map(|row| limits::over(row, limits))
                .collect()
        };
        return Ok(Report {
            text: limits::table(&checks) + "\n" + &limits::table(&writings),
            over: [
                over(&checks, &limits::OF_LISTS),
                over(&writings, &limits::OF_WRITER),
            ]
            .concat(),
        });
    }
    let mut text = String::new();
    if !checks.is_empty() {
        let smallest = families::smallest();
        let call = measure::measure_call(&smallest, SMALL_RUNS)?;
        text += &page::checks(plan, &checks, smallest.book.len(), &call);
    }
    if !writings.is_empty() {
        text += &page::writings(plan, &writings);
    }
    Ok(Report {
        text,
        over: Vec::new(),
    })
}

fn checks_row(plan: &Plan, family: &Family) -> Result<Row, String> {
    let times = |size| measure::measure(&family.case(size), plan.runs);
    Ok(Row {
        name: family.name,
        about: family.about,
        sizes: sizes(plan, family.name, family.answer, times)?,
    })
}

fn writings_row(plan: &Plan, family: &ChartFamily) -> Result<Row, String> {
    let times = |size| measure::measure_writing(&family.case(size), plan.runs);
    Ok(Row {
        name: family.name,
        about: family.about,
        sizes: sizes(plan, family.name, WRITTEN, times)?,
    })
}

/// The times at each size, and none for those that are expected to take too long.
fn sizes(
    plan: &Plan,
    name: &str,
    answer: u32,
    times: impl Fn(Size) -> Result<Times, String>,
) -> Result<Vec<(Size, Option<Times>)>, String> {
    let mut sizes: Vec<(Size, Option<Times>)> = Vec::new();
    for size in plan.sizes.iter().map(|&parts| Size { parts }) {
        let is_short = match sizes.last() {
            None => true,
            Some((_, None)) => false,
            Some((before, Some(times))) => expected(times, *before, size) <= plan.limit,
        };
        if !is_short {
            sizes.push((size, None));
            continue;
        }
        let place = format!("{name}, {}", size.name());
        let times = times(size).map_err(|difference| format!("{place}: {difference}"))?;
        eprintln!(
            "{place}: {}, {:?} and {:?}",
            times.said, times.product, times.independent
        );
        if times.answer != answer {
            return Err(format!("{place}: answer {answer} was meant"));
        }
        sizes.push((size, Some(times)));
    }
    Ok(sizes)
}

/// At most this, if the time grows with the square of the size.
fn expected(times: &Times, before: Size, size: Size) -> Duration {
    let growth = (before.parts / size.parts) as u32;
    growth * growth * times.product.max(times.independent)
}
