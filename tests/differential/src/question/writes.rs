//! The writer, asked.

use super::{Question, Said};
use crate::case::writing::{WriteCase, WriteVerdict};
use crate::case::FILL;
use crate::coverage::Coverage;
use crate::generate::charts;
use crate::shrink::charts::{cuts, Cut};
use crate::write::chart;
use std::io::{self, Write};

/// The longest chart that is printed.
const SHOWN: usize = 40_000;

impl Question for WriteCase {
    const NAME: &'static str = "write-";
    const WORDS: &'static [&'static str] = &["--write"];
    type Verdict = WriteVerdict;
    type Cut = Cut;

    fn generated(seed: u64, number: u64) -> WriteCase {
        charts::case(seed, number)
    }

    fn bytes(&self) -> usize {
        self.chart.len() + self.book.len() + self.ledger.len() + self.room
    }

    fn send(&self, stream: &mut impl Write) -> io::Result<()> {
        self.write(stream)
    }

    fn verdict(&self) -> WriteVerdict {
        WriteCase::verdict(self)
    }

    fn broken_promise(&self) -> Option<&'static str> {
        let (written, area) = self.outcome();
        let length = written.length as usize;
        if written.answer != crate::write::WRITTEN && length != 0 {
            return Some("a length is given at 0 alone");
        }
        if area[length..].iter().any(|&byte| byte != FILL) {
            return Some("bytes past the file stay");
        }
        None
    }

    fn cover(&self, coverage: &mut Coverage) {
        coverage.add_writing(self);
    }

    fn show(&self) {
        println!(
            "  prefix {}, batch {}, room {}, today {}",
            self.prefix.escape_ascii(),
            self.batch.escape_ascii(),
            self.room,
            self.today
        );
        if self.chart.len() > SHOWN {
            println!("  a chart of {} bytes", self.chart.len());
            return;
        }
        let mut rest = &self.chart[..];
        while let [byte, behind @ ..] = rest {
            let length = chart::kind(*byte).map_or(behind.len(), chart::length);
            let (record, next) = behind.split_at(length.min(behind.len()));
            println!("  chart  {byte} {}", shortened(record));
            rest = next;
        }
    }

    fn is_no_worse(&self, _: &WriteVerdict) -> bool {
        true
    }

    fn cuts(&self) -> Vec<Cut> {
        cuts(self)
    }

    fn without(&self, cut: &Cut) -> Vec<WriteCase> {
        cut.applied(self)
    }
}

impl Said for WriteVerdict {
    fn line(&self) -> String {
        WriteVerdict::line(self)
    }

    fn of_line(line: &str) -> Option<WriteVerdict> {
        WriteVerdict::of_line(line)
    }
}

/// A record's bytes without the blanks behind the last text.
fn shortened(record: &[u8]) -> String {
    let end = record.iter().rposition(|&byte| byte != b' ');
    let shown = end.map_or(0, |end| end + 1);
    let blanks = record.len() - shown;
    format!("{}, {blanks} blanks", record[..shown].escape_ascii())
}
