//! The rules 1 to 18, judged record by record as the file is read.

mod antigens;
mod blocks;
mod immunization;
mod seen;

use super::book::{Book, Days, Known, Table};
use super::findings::{Finding, Findings};
use super::forms;
use super::ledger::{Edit, Lent};
use super::shape::{Kind, Record};
use antigens::Antigens;
use blocks::Blocks;
use std::hash::Hash;

/// What the rules say of a file of good shape. The edits are of use only if there
/// is no finding.
pub struct Judged {
    pub findings: Vec<Finding>,
    pub edits: Vec<Edit>,
    pub added: u32,
    pub changed: u32,
    pub deleted: u32,
    pub not_immunized: u32,
}

/// A field as rules 1 and 2 see it.
#[derive(Clone, Copy)]
enum Field<T> {
    /// Mandatory and empty.
    Missing,
    /// Not of its form.
    Malformed,
    /// Optional and empty.
    Empty,
    /// Of its form, and what it says.
    Given(T),
}

use Field::{Empty, Given, Malformed, Missing};

impl<T: Copy> Field<T> {
    #[inline]
    fn of(text: &[u8], need: Need, form: impl Fn(&[u8]) -> Option<T>) -> Field<T> {
        match (text.is_empty(), need) {
            (true, Mandatory) => Missing,
            (true, Optional) => Empty,
            _ => form(text).map_or(Malformed, Given),
        }
    }

    /// What the field says, if it is given and sound.
    #[inline]
    fn given(self) -> Option<T> {
        match self {
            Given(value) => Some(value),
            _ => None,
        }
    }
}

#[derive(Clone, Copy)]
enum Need {
    Mandatory,
    Optional,
}

use Need::{Mandatory, Optional};

/// A day before every date.
const ANY_DAY: u32 = 0;

/// The IP above: its sound fields 3 and 25.
#[derive(Default)]
struct Patient {
    uli: Option<u32>,
    birth: Option<u32>,
}

pub struct Judge<'a> {
    today: u32,
    book: &'a Book,
    findings: Findings,
    /// The place among IP, II, IE, IN and IA lines, from 1.
    place: u32,
    patient: Patient,
    /// The sound date of the II or IN above.
    day: Option<u32>,
    /// The first day on which a code or pair of the II or IN above may end: today
    /// for an II that is not H, any day for the others.
    ends_from: u32,
    /// The vaccine of the II above, if known.
    vaccine: Option<u32>,
    antigens: Antigens,
    blocks: Blocks,
    not_immunized: u32,
}

impl<'a> Judge<'a> {
    pub fn new(today: u32, book: &'a Book) -> Judge<'a> {
        Judge {
            today,
            book,
            findings: Findings::default(),
            place: 0,
            patient: Patient::default(),
            day: None,
            ends_from: ANY_DAY,
            vaccine: None,
            antigens: Antigens::default(),
            blocks: Blocks::default(),
            not_immunized: 0,
        }
    }

    /// Judges the next record of the file.
    pub fn record(&mut self, record: &Record) {
        if record.kind != Kind::IE {
            self.end_immunization();
        }
        match record.kind {
            Kind::IV => self.version(record),
            Kind::IH => self.header(record),
            Kind::IP => self.patient(record),
            Kind::II => self.immunization(record),
            Kind::IE => self.antigen(record),
            Kind::IN => self.not_immunized(record),
            Kind::IA => self.antigen_not_administered(record),
            Kind::IF => self.footer(record),
        }
    }

    /// What is said of the whole file, against the ledger as lent.
    pub fn finish(mut self, lent: &Lent) -> Judged {
        let settled = self.blocks.settle(lent);
        self.findings.merge(settled.findings);
        Judged {
            findings: self.findings.list,
            edits: settled.edits,
            added: settled.added,
            changed: settled.changed,
            deleted: settled.deleted,
            not_immunized: self.not_immunized,
        }
    }

    #[inline]
    fn finding(&mut self, record: &Record, field: u8, rule: u8) {
        let line = record.line;
        self.findings.add(Finding { line, field, rule });
    }

    /// Rules 1 and 2.
    #[inline]
    fn found<T>(&mut self, record: &Record, field: u8, read: &Field<T>) {
        match read {
            Missing => self.finding(record, field, 1),
            Malformed => self.finding(record, field, 2),
            Empty | Given(_) => (),
        }
    }

    /// A field, with rules 1 and 2.
    #[inline]
    fn field<T: Copy>(
        &mut self,
        record: &Record,
        field: u8,
        need: Need,
        form: impl Fn(&[u8]) -> Option<T>,
    ) -> Field<T> {
        let read = Field::of(record.text(field), need, form);
        self.found(record, field, &read);
        read
    }

    /// Rules 1 and 3: IV 2 has only these.
    fn version(&mut self, iv: &Record) {
        match iv.text(2) {
            b"" => self.finding(iv, 2, 1),
            b"7.2" => (),
            _ => self.finding(iv, 2, 3),
        }
    }

    fn header(&mut self, ih: &Record) {
        self.field(ih, 2, Mandatory, forms::submitter_prefix);
        self.field(ih, 3, Mandatory, forms::batch_number);
    }

    fn footer(&mut self, footer: &Record) {
        self.field(footer, 2, Mandatory, forms::record_count);
        self.field(footer, 3, Mandatory, forms::anything);
    }

    fn patient(&mut self, ip: &Record) {
        self.number(ip);
        let uli = self.field(ip, 3, Mandatory, forms::uli).given();
        let birth = self.field(ip, 25, Mandatory, forms::date).given();
        if birth.is_some_and(|day| day > self.today) {
            self.finding(ip, 25, 8);
        }
        self.patient = Patient { uli, birth };
        self.blocks.leave();
    }

    fn not_immunized(&mut self, record: &Record) {
        self.not_immunized += 1;
        self.number(record);
        self.uli(record);
        self.field(record, 4, Mandatory, forms::submission);
        self.day = self.date(record, 5);
        self.ends_from = ANY_DAY;
        let reason = self.field(record, 6, Mandatory, forms::reason_not_immunized);
        self.code(record, 6, &self.book.reasons_not_immunized, reason);
        self.field(record, 7, Mandatory, forms::delivery_organization);
        self.field(record, 8, Optional, forms::grade);
    }

    fn antigen_not_administered(&mut self, ia: &Record) {
        self.number(ia);
        self.uli(ia);
        let antigen = self.field(ia, 4, Mandatory, forms::vaccine_or_antigen);
        self.code(ia, 4, &self.book.antigens, antigen);
    }

    /// Field 2, with rule 7.
    #[inline]
    fn number(&mut self, record: &Record) {
        self.place += 1;
        let number = self.field(record, 2, Mandatory, forms::record_number);
        if number.given().is_some_and(|number| number != self.place) {
            self.finding(record, 2, 7);
        }
    }

    /// Field 3 of a record under an IP, with rule 6.
    #[inline]
    fn uli(&mut self, record: &Record) -> Option<u32> {
        let uli = self.field(record, 3, Mandatory, forms::uli).given();
        if let (Some(its), Some(patients)) = (uli, self.patient.uli) {
            if its != patients {
                self.finding(record, 3, 6);
            }
        }
        uli
    }

    /// II 6 or IN 5, with rule 8.
    #[inline]
    fn date(&mut self, record: &Record, field: u8) -> Option<u32> {
        let day = self.field(record, field, Mandatory, forms::date).given()?;
        let is_before_birth = self.patient.birth.is_some_and(|birth| day < birth);
        if day > self.today || is_before_birth {
            self.finding(record, field, 8);
        }
        Some(day)
    }

    /// Rules 4 and 5, on the date of the II or IN: the number of a known code.
    #[inline]
    fn code<C: Eq + Hash + Copy>(
        &mut self,
        record: &Record,
        field: u8,
        table: &Table<C>,
        code: Field<C>,
    ) -> Option<u32> {
        let Some(Known { number, days }) = table.find(&code.given()?) else {
            self.finding(record, field, 4);
            return None;
        };
        if !self.in_force(days) {
            self.finding(record, field, 5);
        }
        Some(number)
    }

    /// Whether a code or pair is in force for the II or IN above. An unsound date
    /// asks for nothing.
    #[inline]
    fn in_force(&self, days: Days) -> bool {
        self.day
            .is_none_or(|day| days.in_force(day, self.ends_from))
    }
}
