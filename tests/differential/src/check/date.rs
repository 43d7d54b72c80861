//! A date is eight digits YYYYMMDD, a real Gregorian day in the years 1800 to
//! 2199. Dates are held as the number of that form, which orders them.

use super::words;

pub const FIRST_YEAR: u32 = 1800;
pub const LAST_YEAR: u32 = 2199;

/// The end that stands for open.
pub const OPEN: u32 = 99_999_999;

pub fn is_date(number: u32) -> bool {
    let (year, month, day) = (number / 10_000, number / 100 % 100, number % 100);
    (FIRST_YEAR..=LAST_YEAR).contains(&year)
        && (1..=12).contains(&month)
        && (1..=days_in(year, month)).contains(&day)
}

pub fn days_in(year: u32, month: u32) -> u32 {
    match month {
        2 if is_leap(year) => 29,
        2 => 28,
        4 | 6 | 9 | 11 => 30,
        _ => 31,
    }
}

fn is_leap(year: u32) -> bool {
    year % 4 == 0 && (year % 100 != 0 || year % 400 == 0)
}

/// The date that a text is, if it is one.
pub fn of_text(text: &[u8]) -> Option<u32> {
    number_of(text).filter(|&number| is_date(number))
}

/// An end: a date, or 99999999 for open.
pub fn end_of(text: &[u8]) -> Option<u32> {
    number_of(text).filter(|&number| is_date(number) || number == OPEN)
}

/// The number that eight digits write.
fn number_of(text: &[u8]) -> Option<u32> {
    words::eight_digits(text.try_into().ok()?)
}
