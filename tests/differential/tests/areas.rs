//! What becomes of the ledger and of the findings area, the stream of cases, and
//! the limits of length.

use differential::case::{fnv_1a, Case, Verdict};
use differential::check::{ACCEPTED, BOOK, DATE, FINDINGS, LEDGER, LONG, SHAPE};
use differential::coverage::possible;
use differential::driver::Run;
use differential::generate::{self, BOOK_MOST, FILE_MOST, SLOT, SLOTS_MOST};
use differential::random::Random;
use differential::shrink::shrink;

const BARE: &[u8] = b"IV|7.2|\nIH|1|1|\nIF|0|0|\n";
const FOUR_FINDINGS: &[u8] = b"IV||\nIH||-|\nIF||0|\n";

fn bare() -> Case {
    Case {
        today: 20220930,
        file: BARE.to_vec(),
        ..Case::default()
    }
}

fn answer(case: &Case) -> u32 {
    case.outcome().answer.answer
}

#[test]
fn the_area_gets_whole_findings_that_fit() {
    let list = [
        1, 1, 0, 0, 0, 2, 1, 2, 0, 0, 0, 2, 2, 2, 0, 0, 0, 3, 1, 3, 0, 0, 0, 2,
    ];
    for room in 0..40 {
        let outcome = Case {
            file: FOUR_FINDINGS.to_vec(),
            room,
            ..bare()
        }
        .outcome();
        let whole = (room / 6 * 6).min(24);
        assert_eq!(
            (outcome.answer.answer, outcome.answer.findings),
            (FINDINGS, 4)
        );
        assert_eq!(outcome.area[..whole], list[..whole]);
        assert!(outcome.area[whole..].iter().all(|&byte| byte == 0xEE));
    }
}

#[test]
fn limits_of_length() {
    let mut random = Random::of(1, 1);
    let long = |random: &mut Random, length| Case {
        file: generate::long_file(random, length),
        ..bare()
    };
    assert_ne!(answer(&long(&mut random, FILE_MOST)), LONG);
    assert_eq!(answer(&long(&mut random, FILE_MOST + 1)), LONG);
    let book = |length| Case {
        book: generate::long_book(length),
        ..bare()
    };
    assert_eq!(book(BOOK_MOST).book.len(), BOOK_MOST);
    assert_eq!(book(BOOK_MOST + 1).book.len(), BOOK_MOST + 1);
    assert_eq!(answer(&book(BOOK_MOST)), ACCEPTED);
    assert_eq!(answer(&book(BOOK_MOST + 1)), BOOK);
    let ledger = |slots| Case {
        ledger: generate::long_ledger(slots, 5),
        ..bare()
    };
    assert_eq!(answer(&ledger(SLOTS_MOST)), ACCEPTED);
    assert_eq!(answer(&ledger(SLOTS_MOST + 1)), LEDGER);
    assert_eq!(
        answer(&Case {
            ledger: vec![0; SLOT + 1],
            ..bare()
        }),
        LEDGER
    );
}

#[test]
fn the_lowest_answer_is_given() {
    let mut case = Case {
        today: 20230229,
        file: vec![b'x'; FILE_MOST + 1],
        book: vec![9],
        ledger: vec![7],
        room: 0,
    };
    assert_eq!(answer(&case), DATE);
    case.today = 20240229;
    assert_eq!(answer(&case), LONG);
    case.file.truncate(10);
    assert_eq!(answer(&case), BOOK);
    case.book.clear();
    assert_eq!(answer(&case), LEDGER);
    case.ledger.clear();
    assert_eq!(answer(&case), SHAPE);
}

#[test]
fn the_stream_gives_back_its_cases() {
    let cases: Vec<Case> = (200..260).map(|number| generate::case(3, number)).collect();
    let mut bytes = Vec::new();
    cases
        .iter()
        .for_each(|case| case.write(&mut bytes).unwrap());
    let mut stream = &bytes[..];
    for case in &cases {
        assert_eq!(Case::read(&mut stream).unwrap().as_ref(), Some(case));
    }
    assert_eq!(Case::read(&mut stream).unwrap(), None);
}

#[test]
fn a_line_gives_back_its_verdict() {
    let verdict = bare().verdict();
    assert_eq!(Verdict::of_line(&verdict.line()), Some(verdict));
    assert_eq!(Verdict::of_line("0 0 0 0 0 0 0 0 1"), None);
    assert_eq!(fnv_1a(b""), 0xcbf29ce484222325);
    assert_eq!(fnv_1a(b"a"), 0xaf63dc4c8601ec8c);
}

#[test]
fn cases_reach_every_answer_cause_triple_end_and_long_list() {
    assert_eq!(possible().count(), 110);
    let mut run = Run::new(20);
    run.by_itself::<Case>(20_000);
    assert_eq!((run.passed, run.failed), (20_000, 0));
    assert_eq!(run.coverage.missing(), Vec::<String>::new());
}

#[test]
fn a_smaller_case_keeps_its_property() {
    let case = Case {
        book: generate::plain_book(),
        ledger: generate::long_ledger(3, 2),
        ..bare()
    };
    let has_footer = |case: &Case| case.file.windows(3).any(|text| text == b"IF|");
    let smaller = shrink(&case, &|cases| cases.iter().map(has_footer).collect());
    assert_eq!(smaller.file, b"IF|||\n");
    assert_eq!((smaller.book.len(), smaller.ledger.len()), (0, 0));
}
