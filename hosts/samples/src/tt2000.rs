//! TT2000 numbers and UTC fields: around leap seconds to the nanosecond, around 1972 and both ends of 64 bits, and anywhere.

use crate::Random;
use crate::leap_seconds::days;
use answers::{Date, UtcFields};
use second::codes::date_numbers;
use second::leap_seconds::LeapSeconds;
use second::tt2000::read;

const SECOND: i64 = 1_000_000_000;
const DAY: i64 = 86_400 * SECOND;

const EXTREMES: [i64; 6] = [i64::MIN, i64::MIN + 1, i64::MIN + 2, 0, i64::MAX - 1, i64::MAX];
/// The years at the ends of 64 bits, of the other calls and of TT2000, those about 1972, and leap years and others.
const YEARS: [i64; 22] = [
    i64::MIN,
    i64::MIN + 1,
    -10_000,
    -9999,
    -1,
    0,
    1,
    1707,
    1900,
    1970,
    1971,
    1972,
    2000,
    2016,
    2017,
    2292,
    2293,
    2400,
    9999,
    10_000,
    i64::MAX - 3,
    i64::MAX,
];

/// The numbers at which the days of a good list's records begin, 1972-01-01 among them.
fn midnights(list: &[u8]) -> Vec<i64> {
    let listed = LeapSeconds::listed(list).expect("a good list");
    [730].into_iter().chain(days(list)).filter_map(|day| listed.start_of(day)).collect()
}

/// The numbers about the first and the last nanosecond of each leap second, about 1972, and at the ends.
pub fn edges(list: &[u8]) -> Vec<i64> {
    let about = |midnight: i64| [-SECOND, 0].map(|by| midnight + by);
    let near = |number: i64| [-2, -1, 0, 1, 2].map(|by| number.saturating_add(by));
    midnights(list).into_iter().flat_map(about).flat_map(near).chain(EXTREMES).collect()
}

/// A number and its kind.
pub fn number(random: &mut Random, list: &[u8]) -> (&'static str, i64) {
    let midnights = midnights(list);
    let (first, midnight) = (midnights[0], random.pick(&midnights));
    match random.below(8) {
        0 => ("any 64 bits", random.bits() as i64),
        1 => ("any number of bits", random.bits() as i64 >> random.below(64)),
        2 => ("extremes", random.pick(&EXTREMES).saturating_add(random.between(-2, 2))),
        3 => ("around 1972", first + random.between(-2, 2) * random.pick(&[1, SECOND, DAY])),
        4 => ("within a leap second or beside it", midnight.saturating_add(random.between(-2 * SECOND, SECOND))),
        5 => {
            let seconds = random.between(-3, 3) * random.pick(&[SECOND, DAY, 365 * DAY]);
            ("around a record's day", midnight.saturating_add(seconds).saturating_add(random.between(-1, 1)))
        }
        _ => ("from 1972 on", random.between(first, i64::MAX)),
    }
}

/// All months 0 to 13 and days 0 to 32 of the years at the borders.
pub fn dates() -> impl Iterator<Item = Date> {
    YEARS.into_iter().flat_map(crate::borders::dates_of_year)
}

/// The date with a time of day at the borders of its fields; one in four is 23:59:60.
pub fn at_borders(random: &mut Random, date: Date) -> UtcFields {
    let Date { year, month, day } = date;
    let mut part = |last: u32| match random.below(16) {
        0 => last + 1,
        1 => random.pick(&[u32::MAX, last + 2, last + 256]),
        _ => random.pick(&[0, last, last]),
    };
    let [hour, minute, second, nanosecond] = [23, 59, 59, 999_999_999].map(&mut part);
    let fields = UtcFields { year, month, day, hour, minute, second, nanosecond };
    if random.one_in(4) { UtcFields { hour: 23, minute: 59, second: 60, ..fields } } else { fields }
}

/// The last second before a record's day, the first record's and far ones among them.
fn leap_second(random: &mut Random, list: &[u8]) -> UtcFields {
    let eves = &LeapSeconds::listed(list).expect("a good list").eves;
    let eve = match random.below(eves.len() as u64 + 1) {
        0 => second::calendar::Date::new(1971, 12, 31),
        place => eves[place as usize - 1],
    };
    let Date { year, month, day } = date_numbers(eve);
    let nanosecond = random.pick_or_below(&[0, 999_999_999], 1_000_000_000) as u32;
    UtcFields { year, month, day, hour: 23, minute: 59, second: 60, nanosecond }
}

/// The fields with one of them changed, most often to what is not good.
fn changed(random: &mut Random, fields: UtcFields) -> (&'static str, UtcFields) {
    let any = random.bits() as u32;
    match random.below(7) {
        0 => ("month changed", UtcFields { month: random.pick(&[0, 2, 6, 12, 13, any]), ..fields }),
        1 => ("day changed", UtcFields { day: random.pick(&[0, 29, 30, 31, 32, any]), ..fields }),
        2 => ("hour changed", UtcFields { hour: random.pick(&[0, 22, 23, 24, any]), ..fields }),
        3 => ("minute changed", UtcFields { minute: random.pick(&[0, 58, 59, 60, any]), ..fields }),
        4 => ("second changed", UtcFields { second: random.pick(&[0, 59, 60, 61, any]), ..fields }),
        5 => {
            let nanosecond = random.pick(&[999_999, 1_000_000, 999_999_999, 1_000_000_000, any]);
            ("nanosecond changed", UtcFields { nanosecond, ..fields })
        }
        _ => {
            let (near, far) =
                (fields.year.wrapping_add(random.between(-2, 2)), random.bits() as i64 >> random.below(64));
            let cycle = fields.year.wrapping_add(400 * random.between(-3, 3));
            ("year changed", UtcFields { year: random.pick(&[near, far, cycle, i64::MIN, i64::MAX]), ..fields })
        }
    }
}

/// Fields and their kind.
pub fn fields(random: &mut Random, list: &[u8]) -> (&'static str, UtcFields) {
    let read = read(list, number(random, list).1);
    let leap_second = leap_second(random, list);
    match (random.below(6), read) {
        (0, _) => ("leap second", leap_second),
        (1, _) => changed(random, leap_second),
        (2, _) => {
            let date = Date { year: random.pick(&YEARS), month: random.below(14) as u32, day: random.below(33) as u32 };
            ("fields at their borders", at_borders(random, date))
        }
        (3, Ok(fields)) => changed(random, fields),
        (_, Ok(fields)) => ("read from a number", fields),
        _ => ("any fields", any(random)),
    }
}

/// Fields of which each is good by itself, of any year.
fn any(random: &mut Random) -> UtcFields {
    let year = random.bits() as i64 >> random.below(64);
    let [month, day, hour, minute, second] = [12, 31, 24, 60, 60].map(|bound| random.below(bound) as u32);
    let nanosecond = random.below(1_000_000_000) as u32;
    UtcFields { year, month: month + 1, day: day + 1, hour, minute, second, nanosecond }
}
