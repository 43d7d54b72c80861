//! A case made smaller while a property of it stays.

pub mod charts;
pub mod submissions;

use crate::question::Question;
use std::ops::Range;
use std::time::{Duration, Instant};

/// Whether each of these cases still has the property.
pub type Property<'a, Q> = dyn Fn(&[Q]) -> Vec<bool> + 'a;

/// How long the property is asked at most, and of how much at once.
const MOST_TIME: Duration = Duration::from_secs(60);
const QUESTION_CASES: usize = 200;
const QUESTION_BYTES: usize = 8_000_000;

/// Runs of one length that are tried on one area at most: long areas lose only
/// long runs at first.
const MOST_RUNS: usize = 256;

/// Drops what may go until nothing more can go or the time is over.
pub fn shrink<Q: Question>(case: &Q, property: &Property<Q>) -> Q {
    let mut case = case.clone();
    let end = Instant::now() + MOST_TIME;
    while let Some(smaller) = step(&case, property, end) {
        case = smaller;
    }
    case
}

/// The first smaller case that has the property.
fn step<Q: Question>(case: &Q, property: &Property<Q>, end: Instant) -> Option<Q> {
    let mut cuts = case.cuts().into_iter();
    while Instant::now() < end {
        let mut cases = some_cases(case, &mut cuts);
        if cases.is_empty() {
            return None;
        }
        if let Some(place) = property(&cases).iter().position(|&holds| holds) {
            return Some(cases.swap_remove(place));
        }
    }
    None
}

fn some_cases<Q: Question>(case: &Q, cuts: &mut impl Iterator<Item = Q::Cut>) -> Vec<Q> {
    let mut cases = Vec::new();
    let mut bytes = 0;
    while cases.len() < QUESTION_CASES && bytes < QUESTION_BYTES {
        let Some(cut) = cuts.next() else {
            break;
        };
        for smaller in case.without(&cut) {
            bytes += smaller.bytes();
            cases.push(smaller);
        }
    }
    cases
}

/// Where parts of these lengths begin and the last ends.
fn places(lengths: impl Iterator<Item = usize>) -> Vec<usize> {
    let ends = lengths.scan(0, |end, length| {
        *end += length;
        Some(*end)
    });
    std::iter::once(0).chain(ends).collect()
}

/// The runs of parts that may go, long ones first.
fn runs(places: &[usize]) -> Vec<Range<usize>> {
    let parts = places.len() - 1;
    let mut cuts = Vec::new();
    let mut length = parts;
    while length > 0 && parts / length <= MOST_RUNS {
        for first in (0..parts).step_by(length) {
            let last = (first + length).min(parts);
            cuts.push(places[first]..places[last]);
        }
        length = if length > 3 { length / 2 } else { length - 1 };
    }
    cuts
}
