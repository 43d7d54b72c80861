//! The forms of fields: each function reads a text that is not empty, and gives
//! what it says if it is of the form.

use super::code::{short, Code, ShortCode};
use super::{date, words};

/// What an II or an IN does with an event.
#[derive(Clone, Copy, Debug, PartialEq, Eq)]
pub enum Submission {
    Add,
    Change,
    Delete,
}

fn within(text: &[u8], most: usize, accepts: impl Fn(&u8) -> bool) -> bool {
    (1..=most).contains(&text.len()) && text.iter().all(accepts)
}

/// The number that up to nine digits write.
#[inline]
fn number(text: &[u8], most: usize) -> Option<u32> {
    if !(1..=most).contains(&text.len()) {
        return None;
    }
    text.iter().try_fold(0, |number, byte| {
        let digit = byte.wrapping_sub(b'0');
        (digit < 10).then(|| 10 * number + u32::from(digit))
    })
}

fn number_above_zero(text: &[u8], most: usize) -> Option<u32> {
    number(text, most).filter(|&number| number > 0)
}

#[inline]
fn letters(text: &[u8], most: usize) -> Option<ShortCode> {
    within(text, most, u8::is_ascii_alphabetic).then(|| short(text))
}

fn letters_or_digits(text: &[u8], most: usize) -> Option<()> {
    within(text, most, u8::is_ascii_alphanumeric).then_some(())
}

/// IH 2.
pub fn submitter_prefix(text: &[u8]) -> Option<()> {
    letters_or_digits(text, 3)
}

/// IH 3.
pub fn batch_number(text: &[u8]) -> Option<()> {
    letters_or_digits(text, 10)
}

/// IF 2.
pub fn record_count(text: &[u8]) -> Option<()> {
    within(text, 10, u8::is_ascii_digit).then_some(())
}

/// IF 3, which need only not be empty.
pub fn anything(_: &[u8]) -> Option<()> {
    Some(())
}

/// Field 2 of IP, II, IE, IN and IA.
pub fn record_number(text: &[u8]) -> Option<u32> {
    number_above_zero(text, 5)
}

/// Nine digits, as their number.
pub fn uli(text: &[u8]) -> Option<u32> {
    let [first @ .., last] = *<&[u8; 9]>::try_from(text).ok()?;
    let last = last.wrapping_sub(b'0');
    let first = words::eight_digits(first)?;
    (last < 10).then(|| 10 * first + u32::from(last))
}

pub fn date(text: &[u8]) -> Option<u32> {
    date::of_text(text)
}

/// II 4 and IN 4.
pub fn submission(text: &[u8]) -> Option<Submission> {
    match text {
        b"A" => Some(Submission::Add),
        b"C" => Some(Submission::Change),
        b"D" => Some(Submission::Delete),
        _ => None,
    }
}

/// II 5.
pub fn historical(text: &[u8]) -> Option<()> {
    (text == b"H").then_some(())
}

/// II 8, IE 4 and IA 4. A field of a line has no byte outside 32..126.
pub fn vaccine_or_antigen(text: &[u8]) -> Option<Code> {
    Code::of_text(text)
}

/// II 9.
pub fn site(text: &[u8]) -> Option<ShortCode> {
    letters(text, 4)
}

/// II 10.
pub fn method(text: &[u8]) -> Option<ShortCode> {
    letters(text, 3)
}

/// II 11, as the number of its two digits.
pub fn reason(text: &[u8]) -> Option<u32> {
    match text {
        [b' ', digit] => number(&[*digit], 1),
        _ => number(text, 2),
    }
}

/// II 12.
pub fn dosage(text: &[u8]) -> Option<()> {
    let place = text.iter().position(|&byte| byte == b'.');
    let (whole, part) = match place {
        Some(place) => (number(&text[..place], 6)?, number(&text[place + 1..], 2)?),
        None => (number(text, 6)?, 0),
    };
    (whole > 0 || part > 0).then_some(())
}

/// II 13.
pub fn dosage_type(text: &[u8]) -> Option<ShortCode> {
    letters(text, 4)
}

/// II 14.
pub fn manufacturer(text: &[u8]) -> Option<ShortCode> {
    letters(text, 3)
}

/// II 15.
pub fn lot(text: &[u8]) -> Option<Code> {
    let accepts = |byte: &u8| byte.is_ascii_alphanumeric() || *byte == b'-';
    within(text, Code::WIDTH, accepts).then_some(Code::of_text(text)?)
}

/// IE 5.
pub fn count(text: &[u8]) -> Option<u32> {
    number_above_zero(text, 2)
}

/// IN 6.
pub fn reason_not_immunized(text: &[u8]) -> Option<ShortCode> {
    letters(text, 3)
}

/// IN 7.
pub fn delivery_organization(text: &[u8]) -> Option<()> {
    within(text, 4, u8::is_ascii_digit).then_some(())
}

/// IN 8.
pub fn grade(text: &[u8]) -> Option<()> {
    letters_or_digits(text, 2)
}
