//! Holds a batch program against an independent implementation of documents 01
//! and 02.
//!
//! `differential N [SEED] -- PROGRAM..` compares N cases of each operation;
//! `differential N SEED --self` only runs the implementation;
//! `differential N SEED --check | --write ..` takes cases of one operation alone;
//! `differential N SEED --batch [--write]` is itself such a batch program;
//! `differential N SEED --speed [-- PROGRAM..]` times long cases, N times each;
//! `differential --check TODAY FILE BOOK LEDGER` checks one submission.

use differential::case::writing::WriteCase;
use differential::case::Case;
use differential::driver::Run;
use differential::one;
use differential::program::Program;
use differential::question::Question;
use differential::speed;
use std::io::{self, BufReader, BufWriter, Write};
use std::process::ExitCode;

const USAGE: &str = "differential N [SEED] [--check | --write] -- PROGRAM..
differential N SEED --self [--check | --write]
differential N SEED --batch [--write]
differential N SEED --speed [-- PROGRAM..]
differential --check TODAY FILE BOOK LEDGER";

#[derive(Clone, Copy, PartialEq)]
enum Mode {
    Compare,
    Itself,
    Batch,
    Speed,
}

/// The operations whose cases are asked.
#[derive(Clone, Copy, PartialEq)]
enum Operations {
    Check,
    Write,
    Every,
}

struct Arguments {
    cases: usize,
    seed: u64,
    mode: Mode,
    operations: Operations,
    program: Option<Program>,
}

fn main() -> ExitCode {
    let words: Vec<String> = std::env::args().skip(1).collect();
    if let [mode, today, file, book, ledger] = words.as_slice() {
        if mode == "--check" {
            return check_one(today, file, book, ledger);
        }
    }
    let Some(arguments) = arguments(words) else {
        eprintln!("{USAGE}");
        return ExitCode::from(2);
    };
    match arguments.mode {
        Mode::Batch => {
            batch(arguments.operations).map_or(ExitCode::FAILURE, |()| ExitCode::SUCCESS)
        }
        Mode::Speed => {
            speed::print(arguments.cases, arguments.program.as_ref());
            ExitCode::SUCCESS
        }
        Mode::Compare | Mode::Itself => run(&arguments),
    }
}

fn arguments(words: Vec<String>) -> Option<Arguments> {
    let dashes = words
        .iter()
        .position(|word| word == "--")
        .unwrap_or(words.len());
    let command: Vec<String> = words.iter().skip(dashes + 1).cloned().collect();
    let program = (!command.is_empty()).then_some(Program { command });
    let mut numbers = Vec::new();
    let mut mode = Mode::Compare;
    let mut operations = Operations::Every;
    for word in &words[..dashes] {
        match word.as_str() {
            "--self" => mode = Mode::Itself,
            "--batch" => mode = Mode::Batch,
            "--speed" => mode = Mode::Speed,
            "--check" => operations = Operations::Check,
            "--write" => operations = Operations::Write,
            number => numbers.push(number.parse::<u64>().ok()?),
        }
    }
    let &cases = numbers.first()?;
    let seed = numbers.get(1).copied().unwrap_or(1);
    let is_complete = numbers.len() <= 2 && (mode != Mode::Compare || program.is_some());
    is_complete.then_some(Arguments {
        cases: cases as usize,
        seed,
        mode,
        operations,
        program,
    })
}

fn run(arguments: &Arguments) -> ExitCode {
    let mut run = Run::new(arguments.seed);
    if arguments.operations != Operations::Write {
        ask::<Case>(arguments, &mut run);
        run.coverage.print();
    }
    if arguments.operations != Operations::Check {
        ask::<WriteCase>(arguments, &mut run);
        run.coverage.print_writings();
    }
    println!("{} passed, {} failed", run.passed, run.failed);
    if run.failed == 0 {
        ExitCode::SUCCESS
    } else {
        ExitCode::FAILURE
    }
}

fn ask<Q: Question + Sync>(arguments: &Arguments, run: &mut Run) {
    match &arguments.program {
        Some(program) if arguments.mode == Mode::Compare => {
            run.against::<Q>(program, arguments.cases)
        }
        _ => run.by_itself::<Q>(arguments.cases),
    }
}

fn check_one(today: &str, file: &str, book: &str, ledger: &str) -> ExitCode {
    match one::case(today, file, book, ledger) {
        Ok(case) => print!("{}", one::printed(&case.outcome())),
        Err(error) => {
            eprintln!("{error}");
            return ExitCode::from(2);
        }
    }
    ExitCode::SUCCESS
}

/// A line for each case of the stream.
fn batch(operations: Operations) -> io::Result<()> {
    let mut stream = BufReader::new(io::stdin().lock());
    let mut output = BufWriter::new(io::stdout().lock());
    if operations == Operations::Write {
        while let Some(case) = WriteCase::read(&mut stream)? {
            writeln!(output, "{}", case.verdict().line())?;
        }
    } else {
        while let Some(case) = Case::read(&mut stream)? {
            writeln!(output, "{}", case.verdict().line())?;
        }
    }
    output.flush()
}
