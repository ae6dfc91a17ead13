//! Day numbers and dates of the six calendars.

use super::civil::*;
use super::cutover::{Calendar, calendar};
use answers::{Date, DateAnswer, DayAnswer};

/// The first and the last day of the years -9999 to 9999, by the calendar's code.
const RANGES: [(i64, i64); 6] = [
    (-4_371_299, 2_932_896),
    (-4_371_587, 2_932_896),
    (-4_371_312, 2_932_956),
    (-4_368_685, 2_930_949),
    (-4_380_654, 2_938_979),
    (-4_308_840, 2_890_799),
];

pub fn is_in_range(code: u32, day: i64) -> bool {
    let (first, last) = RANGES[code as usize];
    first <= day && day <= last
}

pub fn range(code: u32) -> (i64, i64) {
    RANGES[code as usize]
}

pub fn lacks_year_0(code: u32) -> bool {
    code == 0 || code == 2
}

/// The days of the first and of the last cutover that `standard` may have.
const FIRST_CUTOVER: i64 = -141_427;
const LAST_CUTOVER: i64 = -16_803;

fn standard_date(cutover: Date, day: i64) -> Date {
    let is_late = day >= LAST_CUTOVER || day >= FIRST_CUTOVER && day >= gregorian_day(cutover) - 719_468;
    if is_late { gregorian_date(day + 719_468) } else { julian_date(day + 719_470) }
}

fn date_of_360_days(day: i64) -> Date {
    let of_year = day.rem_euclid(360);
    Date { year: day.div_euclid(360), month: (of_year / 30 + 1) as u32, day: (of_year % 30 + 1) as u32 }
}

/// The date of a day number of a known calendar, in its range.
pub fn date(calendar: Calendar, day: i64) -> Date {
    match calendar.code {
        0 => standard_date(calendar.cutover, day),
        1 => gregorian_date(day + 719_468),
        2 => julian_date(day + 719_483),
        3 => even_date(day + 718_991, 365),
        4 => even_date(day + 720_960, 366),
        _ => date_of_360_days(day + 709_200),
    }
}

fn standard_day(cutover: Date, date: Date) -> i64 {
    let is_late = (date.year, date.month, date.day) >= (cutover.year, cutover.month, cutover.day);
    if is_late { gregorian_day(date) - 719_468 } else { julian_day(date) - 719_470 }
}

/// The day number of a date that a known calendar has.
pub fn day(calendar: Calendar, date: Date) -> i64 {
    match calendar.code {
        0 => standard_day(calendar.cutover, date),
        1 => gregorian_day(date) - 719_468,
        2 => julian_day(date) - 719_483,
        3 => even_day(date, 365) - 718_991,
        4 => even_day(date, 366) - 720_960,
        _ => date.year * 360 + (date.month as i64 - 1) * 30 + date.day as i64 - 1 - 709_200,
    }
}

fn is_gregorian_leap(year: i64) -> bool {
    year % 4 == 0 && (year % 100 != 0 || year % 400 == 0)
}

/// Whether a month lies in a leap year.
fn is_leap(calendar: Calendar, year: i64, month: u32) -> bool {
    match calendar.code {
        0 if calendar.is_gregorian_month(year, month) => is_gregorian_leap(year),
        0 | 2 => counted(year) % 4 == 0,
        1 => is_gregorian_leap(year),
        3 => false,
        _ => true,
    }
}

fn length(month: u32, is_leap: impl Fn() -> bool) -> u32 {
    match month {
        2 if is_leap() => 29,
        2 => 28,
        4 | 6 | 9 | 11 => 30,
        _ => 31,
    }
}

pub fn gregorian_month_length(year: i64, month: u32) -> u32 {
    length(month, || is_gregorian_leap(year))
}

/// The length of a month, with the dates of it that `standard` dropped.
fn month_length(calendar: Calendar, year: i64, month: u32) -> u32 {
    if calendar.code == 5 { 30 } else { length(month, || is_leap(calendar, year, month)) }
}

/// The last day of a month that is not after a day.
pub fn day_at_most(calendar: Calendar, year: i64, month: u32, day: u32) -> u32 {
    let length = month_length(calendar, year, month);
    let day = day.min(length);
    calendar.kept_before(Date { year, month, day }, length).unwrap_or(day)
}

/// The number of the refusal of a date whose year is in range, or 0.
pub fn refusal(calendar: Calendar, date: Date) -> u32 {
    let Date { year, month, day } = date;
    if !(1..=12).contains(&month) || !(1..=31).contains(&day) {
        return 4;
    }
    let length = month_length(calendar, year, month);
    if year == 0 && lacks_year_0(calendar.code) || day > length {
        return 12;
    }
    if calendar.kept_before(date, length).is_some() { 13 } else { 0 }
}

#[inline(never)]
pub extern "C" fn date_of_day(code: u32, cutover: Date, day: i64) -> DateAnswer {
    match calendar(code, cutover) {
        Ok(calendar) if is_in_range(code, day) => DateAnswer { number: 0, date: date(calendar, day) },
        Ok(_) => DateAnswer { number: 5, ..Default::default() },
        Err(number) => DateAnswer { number, ..Default::default() },
    }
}

#[inline(never)]
pub extern "C" fn day_of_date(code: u32, cutover: Date, date: Date) -> DayAnswer {
    let calendar = match calendar(code, cutover) {
        Ok(calendar) => calendar,
        Err(number) => return DayAnswer { number, day: 0 },
    };
    if !(-9999..=9999).contains(&date.year) {
        return DayAnswer { number: 5, day: 0 };
    }
    match refusal(calendar, date) {
        0 => DayAnswer { number: 0, day: day(calendar, date) },
        number => DayAnswer { number, day: 0 },
    }
}
