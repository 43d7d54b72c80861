//! The check, asked.

use super::{Question, Said};
use crate::case::{Case, Outcome, Verdict};
use crate::check::{self, ledger::Lent};
use crate::coverage::Coverage;
use crate::generate;
use crate::shrink::submissions::{self, Cut};
use std::io::{self, Write};

impl Question for Case {
    const NAME: &'static str = "";
    const WORDS: &'static [&'static str] = &[];
    type Verdict = Verdict;
    type Cut = Cut;

    fn generated(seed: u64, number: u64) -> Case {
        generate::case(seed, number)
    }

    fn bytes(&self) -> usize {
        self.file.len() + self.book.len() + self.ledger.len() + self.room
    }

    fn send(&self, stream: &mut impl Write) -> io::Result<()> {
        self.write(stream)
    }

    fn verdict(&self) -> Verdict {
        Case::verdict(self)
    }

    fn broken_promise(&self) -> Option<&'static str> {
        broken_promise(self, &self.outcome())
    }

    fn cover(&self, coverage: &mut Coverage) {
        coverage.add(self, &self.outcome());
    }

    fn show(&self) {
        print_case(self);
    }

    /// A smaller case may not have more findings than the case had: what is left
    /// is then easy to read.
    fn is_no_worse(&self, than: &Verdict) -> bool {
        Case::verdict(self).numbers[3] <= than.numbers[3]
    }

    fn cuts(&self) -> Vec<Cut> {
        submissions::cuts(self)
    }

    fn without(&self, cut: &Cut) -> Vec<Case> {
        cut.applied(self)
    }
}

impl Said for Verdict {
    fn line(&self) -> String {
        Verdict::line(self)
    }

    fn of_line(line: &str) -> Option<Verdict> {
        Verdict::of_line(line)
    }
}

/// What document 01 says of the ledger and the findings area at each answer.
fn broken_promise(case: &Case, outcome: &Outcome) -> Option<&'static str> {
    let answer = outcome.answer;
    let kept = answer.findings as usize * check::FINDING_WIDTH;
    let whole = case.room / check::FINDING_WIDTH * check::FINDING_WIDTH;
    if answer.answer != check::ACCEPTED && outcome.ledger != case.ledger {
        return Some("the ledger alters only at 0");
    }
    if Lent::read(&case.ledger).is_some() && Lent::read(&outcome.ledger).is_none() {
        return Some("the ledger stays well formed");
    }
    if outcome.area[kept.min(whole)..]
        .iter()
        .any(|&byte| byte != crate::case::FILL)
    {
        return Some("other bytes of the findings area stay");
    }
    None
}

/// A case for the eye; long ones are only in their files.
fn print_case(case: &Case) {
    println!("  today {}, room {}", case.today, case.room);
    if case.file.len() + case.book.len() + case.ledger.len() > 20_000 {
        println!(
            "  a file of {}, a book of {}, a ledger of {} bytes",
            case.file.len(),
            case.book.len(),
            case.ledger.len()
        );
        return;
    }
    for line in case.file.split_inclusive(|&byte| byte == b'\n') {
        println!("  file   {}", line.escape_ascii());
    }
    println!("  book   {}", case.book.escape_ascii());
    println!("  ledger {}", case.ledger.escape_ascii());
    for finding in check::all_findings(case.today, &case.file, &case.book, &case.ledger)
        .iter()
        .take(20)
    {
        println!(
            "  expected finding: line {} field {} rule {}",
            finding.line, finding.field, finding.rule
        );
    }
}
