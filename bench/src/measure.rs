//! Both checks, or both writers, on one input: their times, and whether they say the
//! same.

use crate::clock;
use crate::product;
use crate::table;
use differential::case::writing::WriteCase;
use differential::case::{Case, FILL};
use differential::check::{self, Answer};
use differential::write::{self, Written};
use std::hint::black_box;
use std::time::Duration;

/// The runs of one input end when they have taken this long.
const LONG_ENOUGH: Duration = Duration::from_secs(10);

/// The bytes that are read and written before a writer runs: more than caches hold.
/// A long chart does not stay in them, and a short one is not to be there either,
/// so that times for a byte may be compared.
const CACHES: usize = 128 << 20;

/// So many calls on a small file lie between two looks at the clock.
pub const CALLS: u32 = 1000;

type Check = fn(u32, &[u8], &[u8], &mut [u8], &mut [u8]) -> Answer;
type Write = fn(&[u8], &[u8], &[u8], &mut [u8]) -> Written;

pub struct Times {
    /// The bytes of the file.
    pub bytes: usize,
    pub answer: u32,
    /// The answer in words.
    pub said: String,
    pub product: Duration,
    pub independent: Duration,
}

/// The areas that a check may write.
struct Areas {
    ledger: Vec<u8>,
    findings: Vec<u8>,
}

impl Areas {
    fn of(case: &Case) -> Areas {
        Areas {
            ledger: case.ledger.clone(),
            findings: vec![FILL; case.room],
        }
    }

    fn refill(&mut self, case: &Case) {
        self.ledger.copy_from_slice(&case.ledger);
        self.findings.fill(FILL);
    }

    /// The answer, and the time of the check alone.
    fn timed(&mut self, case: &Case, check: Check) -> (Answer, Duration) {
        self.refill(case);
        let start = clock::now();
        let answer = check(
            case.today,
            &case.file,
            &case.book,
            &mut self.ledger,
            &mut self.findings,
        );
        (answer, clock::now() - start)
    }

    /// The time of one of many calls.
    fn call(&mut self, case: &Case, check: Check) -> Duration {
        let start = clock::now();
        for _ in 0..CALLS {
            black_box(check(
                black_box(case.today),
                &case.file,
                &case.book,
                &mut self.ledger,
                &mut self.findings,
            ));
        }
        (clock::now() - start) / CALLS
    }
}

/// The medians of some runs, the two checks in turn; or where the two differ.
pub fn measure(case: &Case, runs: usize) -> Result<Times, String> {
    let (mut ours, mut theirs) = (Areas::of(case), Areas::of(case));
    let (answer, product, independent) = in_turn(runs, || {
        let (answer, product) = ours.timed(case, product::check);
        let (other, independent) = theirs.timed(case, check::check);
        compare(&answer, &ours, &other, &theirs)?;
        Ok((answer, product, independent))
    })?;
    Ok(Times {
        bytes: case.file.len(),
        answer: answer.answer,
        said: table::said(&answer),
        product,
        independent,
    })
}

/// The same of the two writers.
pub fn measure_writing(case: &WriteCase, runs: usize) -> Result<Times, String> {
    let (mut ours, mut theirs) = (vec![FILL; case.room], vec![FILL; case.room]);
    let mut others = vec![0u8; CACHES];
    let (written, product, independent) = in_turn(runs, || {
        fill_caches(&mut others);
        let (written, product) = timed_writing(case, product::write, &mut ours);
        fill_caches(&mut others);
        let (other, independent) = timed_writing(case, write::write, &mut theirs);
        if written != other {
            return Err(format!(
                "the product answers {written:?}, the independent implementation {other:?}"
            ));
        }
        same("area", &ours, &theirs)?;
        Ok((written, product, independent))
    })?;
    let lines = ours.iter().filter(|&&byte| byte == b'\n').count();
    Ok(Times {
        bytes: written.length as usize,
        answer: written.answer,
        said: table::written(lines, case.chart.len()),
        product,
        independent,
    })
}

fn fill_caches(others: &mut [u8]) {
    for byte in others.iter_mut().step_by(64) {
        *byte = byte.wrapping_add(1);
    }
    black_box(others);
}

fn timed_writing(case: &WriteCase, write: Write, area: &mut [u8]) -> (Written, Duration) {
    area.fill(FILL);
    let start = clock::now();
    let written = write(&case.prefix, &case.batch, &case.chart, area);
    (written, clock::now() - start)
}

/// What the runs say, and the medians of the product's times and the other's.
fn in_turn<T>(
    runs: usize,
    mut run: impl FnMut() -> Result<(T, Duration, Duration), String>,
) -> Result<(T, Duration, Duration), String> {
    let (mut product, mut independent) = (Vec::new(), Vec::new());
    let start = clock::now();
    loop {
        let (said, ours, theirs) = run()?;
        product.push(ours);
        independent.push(theirs);
        if product.len() >= runs || clock::now() - start > LONG_ENOUGH {
            return Ok((said, median(product), median(independent)));
        }
    }
}

/// The times of one call on a small file that alters no area: the medians of some
/// runs of many calls; or where the two checks differ.
pub fn measure_call(case: &Case, runs: usize) -> Result<Times, String> {
    let once = measure(case, 1)?;
    let (mut ours, mut theirs) = (Areas::of(case), Areas::of(case));
    let (mut product, mut independent) = (Vec::new(), Vec::new());
    for _ in 0..runs {
        product.push(ours.call(case, product::check));
        independent.push(theirs.call(case, check::check));
    }
    Ok(Times {
        product: median(product),
        independent: median(independent),
        ..once
    })
}

fn median(mut times: Vec<Duration>) -> Duration {
    times.sort();
    times[times.len() / 2]
}

fn compare(answer: &Answer, ours: &Areas, other: &Answer, theirs: &Areas) -> Result<(), String> {
    if answer != other {
        return Err(format!(
            "the product answers {:?}, the independent implementation {:?}",
            answer.numbers(),
            other.numbers()
        ));
    }
    same("ledger", &ours.ledger, &theirs.ledger)?;
    same("findings area", &ours.findings, &theirs.findings)
}

fn same(area: &str, ours: &[u8], theirs: &[u8]) -> Result<(), String> {
    match ours
        .iter()
        .zip(theirs)
        .position(|(our, their)| our != their)
    {
        None => Ok(()),
        Some(place) => Err(format!("the {area} differs from byte {place} on")),
    }
}
