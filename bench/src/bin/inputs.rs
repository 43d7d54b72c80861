//! The inputs that `bench/count` and `bench/stack` call on, and the independent check
//! and writer on one.
//!
//! - `inputs --names` prints the families' names, a line each, those of the writer last.
//! - `inputs --write FAMILY PARTS FOLDER` writes the family's file, book and ledger
//!   of a size, full size divided by PARTS, to the folder, and prints today, the
//!   length of the findings area, the answer that is meant and the file's bytes. Of a
//!   family of the writer it writes the chart, and prints `write`, the length of the
//!   lent area, the answer that is meant and the bytes of the file to be written.
//! - `inputs --write-smallest FOLDER` does so for the smallest file that is accepted.
//! - `inputs --check TODAY FOLDER ROOM CALLS` checks them by the independent
//!   implementation, 0 or 1 times, as `bench/count.c` does by the product. Where TODAY
//!   is `write`, it writes a file from the chart.

use bench::chart_families;
use bench::charts::{BATCH, PREFIX};
use bench::families;
use bench::world::Size;
use differential::case::writing::WriteCase;
use differential::case::{fnv_1a, Case, FILL};
use differential::check;
use differential::write::{self, Written};
use std::path::Path;
use std::process::ExitCode;

const USAGE: &str =
    "inputs --names | --write FAMILY PARTS FOLDER | --write-smallest FOLDER | --check TODAY FOLDER ROOM CALLS";

fn main() -> ExitCode {
    let words: Vec<String> = std::env::args().skip(1).collect();
    let words: Vec<&str> = words.iter().map(String::as_str).collect();
    match run(&words) {
        Some(Ok(())) => ExitCode::SUCCESS,
        Some(Err(fault)) => {
            eprintln!("inputs: {fault}");
            ExitCode::FAILURE
        }
        None => {
            eprintln!("{USAGE}");
            ExitCode::from(2)
        }
    }
}

fn run(words: &[&str]) -> Option<std::io::Result<()>> {
    match words {
        ["--names"] => {
            let checks = families::all().into_iter().map(|family| family.name);
            let writings = chart_families::all().into_iter().map(|family| family.name);
            checks.chain(writings).for_each(|name| println!("{name}"));
            Some(Ok(()))
        }
        ["--write", name, parts, folder] => {
            let size = Size {
                parts: parts.parse().ok()?,
            };
            let folder = Path::new(folder);
            if let Some(family) = chart_families::all().iter().find(|it| it.name == *name) {
                return Some(write_chart(family.case(size), folder));
            }
            let family = families::all().into_iter().find(|it| it.name == *name)?;
            Some(write(family.case(size), family.answer, folder))
        }
        ["--write-smallest", folder] => Some(write(
            families::smallest(),
            check::ACCEPTED,
            Path::new(folder),
        )),
        ["--check", "write", folder, room, calls] => Some(write_file(
            Path::new(folder),
            room.parse().ok()?,
            *calls != "0",
        )),
        ["--check", today, folder, room, calls] => Some(check(
            today.parse().ok()?,
            Path::new(folder),
            room.parse().ok()?,
            *calls != "0",
        )),
        _ => None,
    }
}

fn write(case: Case, answer: u32, folder: &Path) -> std::io::Result<()> {
    let bytes = case.file.len();
    std::fs::write(folder.join("file"), case.file)?;
    std::fs::write(folder.join("book"), case.book)?;
    std::fs::write(folder.join("ledger"), case.ledger)?;
    println!("{} {} {answer} {bytes}", case.today, case.room);
    Ok(())
}

fn write_chart(case: WriteCase, folder: &Path) -> std::io::Result<()> {
    let bytes = case.outcome().0.length;
    std::fs::write(folder.join("chart"), case.chart)?;
    println!("write {} {} {bytes}", case.room, write::WRITTEN);
    Ok(())
}

fn write_file(folder: &Path, room: usize, is_called: bool) -> std::io::Result<()> {
    let chart = std::fs::read(folder.join("chart"))?;
    let mut area = vec![FILL; room];
    let written = match is_called {
        false => Written::default(),
        true => write::write(PREFIX, BATCH, &chart, &mut area),
    };
    println!(
        "{} {} {:016x}",
        written.answer,
        written.length,
        fnv_1a(&area)
    );
    Ok(())
}

fn check(today: u32, folder: &Path, room: usize, is_called: bool) -> std::io::Result<()> {
    let file = std::fs::read(folder.join("file"))?;
    let book = std::fs::read(folder.join("book"))?;
    let mut ledger = std::fs::read(folder.join("ledger"))?;
    let mut findings = vec![FILL; room];
    let answer = match is_called {
        false => check::Answer::default(),
        true => check::check(today, &file, &book, &mut ledger, &mut findings),
    };
    let numbers = answer.numbers().map(|number| number.to_string());
    let (ledger, area) = (fnv_1a(&ledger), fnv_1a(&findings));
    println!("{} {ledger:016x} {area:016x}", numbers.join(" "));
    Ok(())
}
