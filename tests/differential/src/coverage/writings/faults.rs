//! Why a call of the writer is refused.

use super::{Row, KINDS};
use crate::case::writing::WriteCase;
use crate::check::shape::Kind;
use crate::write::chart::Fault;

/// Why a prefix or batch number is not of its form.
#[derive(Clone, Copy, Debug, PartialEq, Eq, PartialOrd, Ord)]
pub enum NoForm {
    Empty,
    TooLong,
    Padded,
    OtherByte,
}

#[derive(Clone, Copy, Debug, PartialEq, Eq, PartialOrd, Ord)]
pub enum NoKind {
    Zero,
    Six,
    Digit,
    Highest,
    Other,
}

#[derive(Clone, Copy, Debug, PartialEq, Eq, PartialOrd, Ord)]
pub enum Odd {
    Pipe,
    Zero,
    LineFeed,
    OfThirtyOne,
    OtherBelowBlank,
    OfOneHundredTwentySeven,
    OfOneHundredTwentyEight,
    Highest,
}

const NO_FORMS: [NoForm; 4] = [
    NoForm::Empty,
    NoForm::TooLong,
    NoForm::Padded,
    NoForm::OtherByte,
];
const NO_KINDS: [NoKind; 5] = [
    NoKind::Zero,
    NoKind::Six,
    NoKind::Digit,
    NoKind::Highest,
    NoKind::Other,
];
const ODDS: [Odd; 8] = [
    Odd::Pipe,
    Odd::Zero,
    Odd::LineFeed,
    Odd::OfThirtyOne,
    Odd::OtherBelowBlank,
    Odd::OfOneHundredTwentySeven,
    Odd::OfOneHundredTwentyEight,
    Odd::Highest,
];

pub fn possible() -> Vec<Row> {
    let mut rows = NO_FORMS.map(Row::Prefix).to_vec();
    rows.extend(NO_FORMS.map(Row::Batch));
    rows.extend(NO_KINDS.map(Row::Kind));
    rows.extend(KINDS.map(|kind| Row::Cut(kind, true)));
    rows.extend(KINDS.map(|kind| Row::Cut(kind, false)));
    rows.extend(ODDS.map(Row::Byte));
    rows.extend(KINDS.map(Row::ByteIn));
    rows.extend(wrong_orders());
    rows
}

/// What may not follow what, by document 01's order.
fn wrong_orders() -> impl Iterator<Item = Row> {
    use Kind::*;
    let befores = [None, Some(IP), Some(II), Some(IE), Some(IN), Some(IA)];
    let right = |before: Option<Kind>| match before {
        None => [Some(IP), None].to_vec(),
        Some(IP) => [Some(II), Some(IN)].to_vec(),
        Some(II) => [Some(IE)].to_vec(),
        Some(IE) => [Some(IE), Some(II), Some(IN), Some(IP), None].to_vec(),
        Some(IN) => [Some(IA)].to_vec(),
        _ => [Some(IA), Some(IN), Some(IP), None].to_vec(),
    };
    let nexts = [Some(IP), Some(II), Some(IE), Some(IN), Some(IA), None];
    let pairs = befores
        .into_iter()
        .flat_map(move |before| nexts.map(|next| (before, next)));
    pairs
        .filter(move |&(before, next)| !right(before).contains(&next))
        .map(|(before, next)| Row::Order(before, next))
}

pub fn rows(case: &WriteCase, fault: Fault) -> Vec<Row> {
    match fault {
        Fault::Prefix => vec![Row::Prefix(no_form(&case.prefix, 3))],
        Fault::Batch => vec![Row::Batch(no_form(&case.batch, 10))],
        Fault::Kind(byte) => vec![Row::Kind(match byte {
            0 => NoKind::Zero,
            6 => NoKind::Six,
            b'0'..=b'9' => NoKind::Digit,
            255 => NoKind::Highest,
            _ => NoKind::Other,
        })],
        Fault::Cut(kind, behind) => vec![Row::Cut(kind, behind == 0)],
        Fault::Byte(kind, byte) => of_byte(byte)
            .map(Row::Byte)
            .into_iter()
            .chain([Row::ByteIn(kind)])
            .collect(),
        Fault::Order(before, next) => vec![Row::Order(before, next)],
    }
}

fn no_form(text: &[u8], most: usize) -> NoForm {
    match text {
        [] => NoForm::Empty,
        [b' ', ..] | [.., b' '] => NoForm::Padded,
        _ if text.len() > most => NoForm::TooLong,
        _ => NoForm::OtherByte,
    }
}

fn of_byte(byte: u8) -> Option<Odd> {
    match byte {
        b'|' => Some(Odd::Pipe),
        0 => Some(Odd::Zero),
        b'\n' => Some(Odd::LineFeed),
        31 => Some(Odd::OfThirtyOne),
        0..=30 => Some(Odd::OtherBelowBlank),
        127 => Some(Odd::OfOneHundredTwentySeven),
        128 => Some(Odd::OfOneHundredTwentyEight),
        255 => Some(Odd::Highest),
        _ => None,
    }
}
