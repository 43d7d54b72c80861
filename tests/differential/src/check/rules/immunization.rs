//! II and IE records.

use super::{Empty, Field, Given, Judge, Mandatory, Need, Optional, ANY_DAY};
use crate::check::book::Pairs;
use crate::check::findings::Finding;
use crate::check::forms;
use crate::check::ledger::Name;
use crate::check::shape::Record;
use crate::check::tables::{self, IN, MO, NO, PO};

/// II 5 is exactly H, or 20 is not empty, or 18 is neither empty nor AB, or 18
/// is empty and 19 is not.
fn is_relaxed(ii: &Record) -> bool {
    ii.text(5) == b"H"
        || !ii.is_empty(20)
        || match ii.is_empty(18) {
            true => !ii.is_empty(19),
            false => ii.text(18) != b"AB",
        }
}

impl Judge<'_> {
    pub(super) fn immunization(&mut self, ii: &Record) {
        let need = if is_relaxed(ii) { Optional } else { Mandatory };
        self.number(ii);
        let uli = self.uli(ii);
        let submission = self.field(ii, 4, Mandatory, forms::submission).given();
        self.historical(ii);
        self.day = self.date(ii, 6);
        let vaccine = self.field(ii, 8, Mandatory, forms::vaccine_or_antigen);
        self.vaccine = self.code(ii, 8, &self.book.vaccines, vaccine);
        self.site_and_method(ii, need);
        self.reason(ii, need);
        self.dosage_and_type(ii, need);
        let manufacturer = self.field(ii, 14, need, forms::manufacturer);
        self.code(ii, 14, &self.book.manufacturers, manufacturer);
        let lot = self.field(ii, 15, need, forms::lot);
        match (uli, submission, self.day, vaccine) {
            (Some(uli), Some(submission), Some(date), Given(vaccine)) => {
                let name = Name::new(uli, date, vaccine);
                if self.blocks.enter(ii.line, name, submission, lot) {
                    self.finding(ii, 15, 14);
                }
            }
            _ => self.blocks.leave(),
        }
    }

    /// II 5: only where it is H may a code or pair have ended before today.
    fn historical(&mut self, ii: &Record) {
        let indicator = self.field(ii, 5, Optional, forms::historical);
        self.ends_from = match indicator.given() {
            Some(()) => ANY_DAY,
            None => self.today,
        };
    }

    /// II 9 and II 10, with rules 4, 9 and 10.
    fn site_and_method(&mut self, ii: &Record, need: Need) {
        let site = self.field(ii, 9, need, forms::site);
        let method = self.field(ii, 10, need, forms::method);
        if site.given().is_some_and(|site| !tables::is_site(site)) {
            self.finding(ii, 9, 4);
        }
        if method
            .given()
            .is_some_and(|method| !tables::is_method(method))
        {
            self.finding(ii, 10, 4);
        }
        if let (Given(site), Given(method)) = (site, method) {
            if (method == PO && site != MO) || (method == IN && site != NO) {
                self.finding(ii, 9, 9);
            }
            if (site == MO && method != PO) || (site == NO && method != IN) {
                self.finding(ii, 10, 9);
            }
        }
        self.both_or_neither(ii, (9, site), (10, method));
    }

    /// Rule 10. Outside a relaxed event an empty field is not sound.
    #[inline]
    fn both_or_neither<T, U>(&mut self, ii: &Record, one: (u8, Field<T>), other: (u8, Field<U>)) {
        match (one.1, other.1) {
            (Empty, Given(_)) => self.finding(ii, one.0, 10),
            (Given(_), Empty) => self.finding(ii, other.0, 10),
            _ => (),
        }
    }

    /// II 11, with rules 4, 5 and 11.
    fn reason(&mut self, ii: &Record, need: Need) {
        let reason = self.field(ii, 11, need, forms::reason);
        let known = self.code(ii, 11, &self.book.reasons, reason);
        self.pair(ii, 11, &self.book.vaccine_with_reason, known);
    }

    /// II 12 and II 13, with rules 4, 5 and 10.
    fn dosage_and_type(&mut self, ii: &Record, need: Need) {
        let dosage = self.field(ii, 12, need, forms::dosage);
        let dosage_type = self.field(ii, 13, need, forms::dosage_type);
        self.code(ii, 13, &self.book.dosage_types, dosage_type);
        self.both_or_neither(ii, (12, dosage), (13, dosage_type));
    }

    /// Rule 11: the pair of the vaccine with another code, if both are known.
    #[inline]
    fn pair(&mut self, record: &Record, field: u8, pairs: &Pairs, other: Option<u32>) {
        let (Some(vaccine), Some(other)) = (self.vaccine, other) else {
            return;
        };
        let pair = pairs.find(vaccine, other);
        if !pair.is_some_and(|days| self.in_force(days)) {
            self.finding(record, field, 11);
        }
    }

    /// An IE, with rules 4, 5, 11 and 12 at its field 4.
    pub(super) fn antigen(&mut self, ie: &Record) {
        self.number(ie);
        self.uli(ie);
        let antigen = self.field(ie, 4, Mandatory, forms::vaccine_or_antigen);
        let known = self.code(ie, 4, &self.book.antigens, antigen);
        self.pair(ie, 4, &self.book.vaccine_with_antigen, known);
        let count = Field::of(ie.text(5), Mandatory, forms::count);
        if self.antigens.add(antigen.given(), count.given()) {
            self.finding(ie, 4, 12);
        }
        self.found(ie, 5, &count);
    }

    /// Rule 13, when the last IE of an II is judged.
    #[inline]
    pub(super) fn end_immunization(&mut self) {
        if self.antigens.is_empty() {
            return;
        }
        if let Some(line) = self.blocks.end_immunization(&mut self.antigens) {
            self.findings.add(Finding {
                line,
                field: 8,
                rule: 13,
            });
        }
        self.antigens.clear();
    }
}
