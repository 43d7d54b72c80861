//! Long cases of different make, and the time that each takes.

use crate::case::Case;
use crate::generate::{self, FILE_MOST, SLOT, SLOTS_MOST};
use crate::program::Program;
use std::time::{Duration, Instant};

/// The lowest time of some runs on each long case, and the program's if given.
pub fn print(runs: usize, program: Option<&Program>) {
    for (name, case) in long_cases() {
        let answer = case.outcome().answer;
        let lowest = (0..runs.max(1))
            .map(|_| timed(&case))
            .min()
            .unwrap_or_default();
        print!(
            "{name}: answer {}, {:.1} ms",
            answer.answer,
            milliseconds(lowest)
        );
        if let Some(program) = program {
            let taken = (0..runs.max(1))
                .map(|_| timed_program(program, &case))
                .min()
                .unwrap_or_default();
            print!("; the program {:.1} ms", milliseconds(taken));
        }
        println!();
    }
}

fn milliseconds(duration: Duration) -> f64 {
    duration.as_secs_f64() * 1000.0
}

/// The check alone, without the copies of the areas.
fn timed(case: &Case) -> Duration {
    let mut ledger = case.ledger.clone();
    let mut area = vec![crate::case::FILL; case.room];
    let start = Instant::now();
    let answer = crate::check::check(case.today, &case.file, &case.book, &mut ledger, &mut area);
    let taken = start.elapsed();
    std::hint::black_box((answer, ledger, area));
    taken
}

/// Starting the program and sending the case are in its time.
fn timed_program(program: &Program, case: &Case) -> Duration {
    let start = Instant::now();
    std::hint::black_box(program.run(std::slice::from_ref(case)));
    start.elapsed()
}

const START: &str = "IV|7.2|\nIH|10|000001|\n";
const PATIENT: &str = "IP|1|123456789|||||SMITH|JOHN||||||||||||||||20150301|||\n";
const FOOTER: &str = "IF|8|0|\n";

/// Long files: ordinary ones, and those that make a careless check slow.
fn long_cases() -> Vec<(&'static str, Case)> {
    let empty = vec![0; SLOTS_MOST * SLOT];
    let full = generate::long_ledger(SLOTS_MOST, SLOTS_MOST - 1);
    vec![
        (
            "one event for each patient, empty ledger",
            case(patients(), empty.clone()),
        ),
        (
            "one event for each patient, live ledger",
            case(patients(), full),
        ),
        (
            "one block of many lots",
            case(many(lots_line), empty.clone()),
        ),
        (
            "one immunization of many antigens",
            case(many(antigens_line), empty.clone()),
        ),
        (
            "two immunizations of half of the antigens each",
            case(two_halves(), empty.clone()),
        ),
        (
            "many blocks of two events in turn",
            case(many(blocks_line), empty.clone()),
        ),
        (
            "many blocks of different events",
            case(many(events_line), empty.clone()),
        ),
        (
            "many short faulty records",
            case(many(|_| "IE|||||\n".to_string()), empty.clone()),
        ),
        ("one long field", case(one_field(), empty)),
    ]
}

fn case(file: String, ledger: Vec<u8>) -> Case {
    Case {
        today: 20220930,
        file: file.into_bytes(),
        book: generate::plain_book(),
        ledger,
        room: 6000,
    }
}

/// Lines of this make under one patient and one II, up to the longest file.
fn many(line: fn(usize) -> String) -> String {
    let mut file = [START, PATIENT, &immunization(2, "L0"), &antigen(3, "TESTA")].concat();
    let mut place = 4;
    loop {
        let next = line(place);
        if file.len() + next.len() + FOOTER.len() > FILE_MOST {
            return file + FOOTER;
        }
        file += &next;
        place += 1;
    }
}

fn immunization(place: usize, lot: &str) -> String {
    format!("II|{place}|123456789|A||20220901||TESTV|LA|IM|50|0.5|ML|GSK|{lot}||||||||\n")
}

fn antigen(place: usize, code: &str) -> String {
    format!("IE|{place}|123456789|{code}|1|\n")
}

fn lots_line(place: usize) -> String {
    immunization(2 * place - 4, &format!("L{place}")) + &antigen(2 * place - 3, "TESTA")
}

fn antigens_line(place: usize) -> String {
    antigen(place, &format!("A{place}"))
}

fn blocks_line(place: usize) -> String {
    let day = if place % 2 == 0 {
        "20220901"
    } else {
        "20220902"
    };
    immunization(2 * place - 4, "L1").replace("20220901", day) + &antigen(2 * place - 3, "TESTA")
}

fn events_line(place: usize) -> String {
    immunization(2 * place - 4, "L1").replace("TESTV", &format!("V{place}"))
        + &antigen(2 * place - 3, "TESTA")
}

fn patients() -> String {
    let mut file = START.to_string();
    let mut place = 1;
    loop {
        let uli = format!("{:09}", place * 1000);
        let lines = [
            PATIENT,
            &immunization(place + 1, "L1"),
            &antigen(place + 2, "TESTA"),
        ]
        .concat();
        let lines = lines
            .replace("IP|1|", &format!("IP|{place}|"))
            .replace("123456789", &uli);
        if file.len() + lines.len() + FOOTER.len() > FILE_MOST {
            return file + FOOTER;
        }
        file += &lines;
        place += 3;
    }
}

fn two_halves() -> String {
    let half = FILE_MOST / 2;
    let mut file = [START, PATIENT].concat();
    for (first, lot) in [(2, "L1"), (100_000, "L2")] {
        let from = file.len();
        file += &immunization(first, lot);
        let mut place = first + 1;
        while file.len() - from < half - 200 {
            file += &antigen(place, &format!("A{}", place - first));
            place += 1;
        }
    }
    file + FOOTER
}

fn one_field() -> String {
    let rest = [
        START,
        PATIENT,
        &immunization(2, "L1"),
        &antigen(3, "TESTA"),
        FOOTER,
    ]
    .concat();
    rest.replace("SMITH", &"N".repeat(FILE_MOST - rest.len() + 5))
}
