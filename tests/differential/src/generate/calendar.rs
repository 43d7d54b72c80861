//! Days to draw from, the edges of the calendar among them.

use crate::random::Random;

pub const FIRST: u32 = 18000101;
pub const LAST: u32 = 21991231;

/// Days at an edge of a month, a year, a century or the calendar.
const EDGES: [u32; 16] = [
    FIRST, 18000228, 18000301, 19000228, 19000301, 19991231, 20000101, 20000228, 20000229,
    20000301, 20231231, 20240101, 20240229, 20240301, 21000228, LAST,
];

/// Texts that are near to a date and are none.
pub const NOT_DATES: [&str; 26] = [
    "17991231",
    "22000101",
    "20230229",
    "19000229",
    "21000229",
    "18000229",
    "20220431",
    "20220631",
    "20220931",
    "20221131",
    "20220230",
    "20221301",
    "20220001",
    "20220100",
    "20220132",
    "20220832",
    "00000000",
    "99999999",
    "2022090",
    "202209011",
    " 2022091",
    "2022O901",
    "2022-9-1",
    "20220 01",
    "+2022091",
    "2022090/",
];

/// Numbers that are near to a date and are none.
pub const NOT_TODAY: [u32; 12] = [
    0, 1, 17991231, 22000101, 20230229, 19000229, 20220431, 20221301, 20220100, 20220001, 99999999,
    4294967295,
];

fn length(year: u32, month: u32) -> u32 {
    match month {
        2 if year % 400 == 0 || (year % 4 == 0 && year % 100 != 0) => 29,
        2 => 28,
        4 | 6 | 9 | 11 => 30,
        _ => 31,
    }
}

fn parts(day: u32) -> (u32, u32, u32) {
    (day / 10_000, day / 100 % 100, day % 100)
}

fn whole(year: u32, month: u32, day: u32) -> u32 {
    year * 10_000 + month * 100 + day
}

pub fn is_real(date: u32) -> bool {
    let (year, month, day) = parts(date);
    (FIRST..=LAST).contains(&date)
        && (1..=12).contains(&month)
        && (1..=length(year, month)).contains(&day)
}

pub fn day_after(date: u32) -> u32 {
    match parts(date) {
        _ if date >= LAST => LAST,
        (year, month, day) if day < length(year, month) => whole(year, month, day + 1),
        (year, 12, _) => whole(year + 1, 1, 1),
        (year, month, _) => whole(year, month + 1, 1),
    }
}

pub fn day_before(date: u32) -> u32 {
    match parts(date) {
        _ if date <= FIRST => FIRST,
        (year, month, day) if day > 1 => whole(year, month, day - 1),
        (year, 1, _) => whole(year - 1, 12, 31),
        (year, month, _) => whole(year, month - 1, length(year, month - 1)),
    }
}

/// A day between two others, both included.
pub fn between(random: &mut Random, from: u32, to: u32) -> u32 {
    let year = random.between((from / 10_000) as usize, (to / 10_000) as usize) as u32;
    let month = random.between(1, 12) as u32;
    let day = random.between(1, length(year, month) as usize) as u32;
    whole(year, month, day).clamp(from, to)
}

pub fn any_day(random: &mut Random) -> u32 {
    match random.below(10) {
        0..=3 => *random.pick(&EDGES),
        4 => between(random, FIRST, LAST),
        _ => between(random, 19500101, 20301231),
    }
}

/// A day on or before another, often near to it.
pub fn on_or_before(random: &mut Random, day: u32) -> u32 {
    match random.below(8) {
        0 | 1 => day,
        2 | 3 => day_before(day),
        4 => (*random.pick(&EDGES)).min(day),
        5 => FIRST,
        _ => between(random, day.saturating_sub(200_000).max(FIRST), day),
    }
}
