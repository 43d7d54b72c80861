//! A case of one of the operations, as a batch program is asked it.

mod checks;
mod writes;

use crate::coverage::Coverage;
use std::fmt::Debug;
use std::io::{self, Write};

pub trait Question: Clone {
    /// What begins the names of its written cases.
    const NAME: &'static str;
    /// The words that tell a batch program the operation.
    const WORDS: &'static [&'static str];
    type Verdict: Said;
    /// Bytes that may go.
    type Cut;

    /// The generated case of this number.
    fn generated(seed: u64, number: u64) -> Self;
    /// The bytes that carry it, about.
    fn bytes(&self) -> usize;
    fn send(&self, stream: &mut impl Write) -> io::Result<()>;
    /// What the implementation says of it.
    fn verdict(&self) -> Self::Verdict;
    /// What the implementation does there that the documents do not allow.
    fn broken_promise(&self) -> Option<&'static str>;
    fn cover(&self, coverage: &mut Coverage);
    /// Prints it for the eye.
    fn show(&self);
    /// Whether it is as easy to read as one that has this verdict.
    fn is_no_worse(&self, than: &Self::Verdict) -> bool;
    /// What may go, long parts first.
    fn cuts(&self) -> Vec<Self::Cut>;
    /// The smaller cases that a cut gives.
    fn without(&self, cut: &Self::Cut) -> Vec<Self>;
}

/// What is said of a case, and the line that says it.
pub trait Said: Copy + PartialEq + Debug {
    fn line(&self) -> String;
    /// None for a line of another form.
    fn of_line(line: &str) -> Option<Self>;
}
