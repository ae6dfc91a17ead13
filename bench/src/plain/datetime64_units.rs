//! The units of datetime64 arrays: how a number is read as an instant, and an instant written as a number.

use super::clock::DAY;
use super::cutover::PROLEPTIC_GREGORIAN;
use super::days;
use answers::Date;

const NOT_A_TIME: i64 = i64::MIN;
const FIRST: i64 = -4_371_587 * DAY;
const LAST: i64 = 2_932_897 * DAY - 1;

/// A refusal is a number of the table, or 0. A number that is refused has no instant, and an instant that is refused no number.
pub trait Reading {
    fn refusal(number: i64) -> u32;
    fn instant(number: i64) -> i64;
}

pub trait Writing {
    fn refusal(instant: i64) -> u32;
    fn number(instant: i64) -> i64;
}

/// The first of two refusals that applies.
fn refusal(is_good: bool, is_first: bool, first: u32, other: u32) -> u32 {
    match (is_good, is_first) {
        (true, _) => 0,
        (_, true) => first,
        _ => other,
    }
}

fn is_in_years(instant: i64) -> bool {
    (FIRST..=LAST).contains(&instant)
}

/// So many microseconds.
pub struct Multiple<const LENGTH: i64>;

impl<const LENGTH: i64> Reading for Multiple<LENGTH> {
    fn refusal(number: i64) -> u32 {
        let is_good = (FIRST / LENGTH..=LAST / LENGTH).contains(&number);
        refusal(is_good, number == NOT_A_TIME, 10, 5)
    }

    fn instant(number: i64) -> i64 {
        number * LENGTH
    }
}

impl<const LENGTH: i64> Writing for Multiple<LENGTH> {
    fn refusal(instant: i64) -> u32 {
        let is_in_years = is_in_years(instant);
        refusal(is_in_years && instant % LENGTH == 0, !is_in_years, 5, 6)
    }

    fn number(instant: i64) -> i64 {
        instant / LENGTH
    }
}

/// A microsecond has so many.
pub struct Fraction<const PARTS: i64>;

impl<const PARTS: i64> Reading for Fraction<PARTS> {
    fn refusal(number: i64) -> u32 {
        refusal(number % PARTS == 0, number == NOT_A_TIME, 10, 6)
    }

    fn instant(number: i64) -> i64 {
        number / PARTS
    }
}

impl<const PARTS: i64> Writing for Fraction<PARTS> {
    fn refusal(instant: i64) -> u32 {
        let is_good = (i64::MIN / PARTS..=i64::MAX / PARTS).contains(&instant);
        refusal(is_good, !is_in_years(instant), 5, 6)
    }

    fn number(instant: i64) -> i64 {
        instant * PARTS
    }
}

/// So many months.
pub struct Months<const LENGTH: i64>;

impl<const LENGTH: i64> Reading for Months<LENGTH> {
    fn refusal(number: i64) -> u32 {
        let is_good = (12 * (-9999 - 1970) / LENGTH..=(12 * (9999 - 1970) + 11) / LENGTH).contains(&number);
        refusal(is_good, number == NOT_A_TIME, 10, 5)
    }

    fn instant(number: i64) -> i64 {
        let months = number * LENGTH;
        let date = Date { year: months.div_euclid(12) + 1970, month: months.rem_euclid(12) as u32 + 1, day: 1 };
        days::day(PROLEPTIC_GREGORIAN, date) * DAY
    }
}

/// How many times so many months lie between 1970-01-01 and an instant, or the number of the refusal.
pub fn months<const LENGTH: i64>(instant: i64) -> Result<i64, u32> {
    if !is_in_years(instant) {
        return Err(5);
    }
    let date = days::date(PROLEPTIC_GREGORIAN, instant.div_euclid(DAY));
    let months = (date.year - 1970) * 12 + date.month as i64 - 1;
    let is_first = instant % DAY == 0 && date.day == 1 && months % LENGTH == 0;
    if is_first { Ok(months / LENGTH) } else { Err(6) }
}
