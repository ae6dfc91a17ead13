//! Dates and times of day at the borders of their fields: the last number that is possible, the first that is not, and several at once.

use crate::Random;
use answers::{Date, Fields};
use std::iter::repeat_n;

/// A name of each calendar, by its code.
const NAMES: [&str; 6] = ["standard", "proleptic_gregorian", "julian", "noleap", "all_leap", "360_day"];

/// The ends of the range and the years past them, those about year 0, that of the cutover, and two that are leap years in some calendars.
const YEARS: [i64; 10] = [-10_000, -9999, -1, 0, 1, 1582, 1900, 2000, 9999, 10_000];

/// The month of the cutover, and those at the ends of the range.
const MONTHS: [(i64, u32); 3] = [(1582, 10), (-9999, 1), (9999, 12)];

/// All months 0 to 13 and days 0 to 32 of a year.
pub fn dates_of_year(year: i64) -> impl Iterator<Item = Date> {
    (0..14 * 33).map(move |place| Date { year, month: place / 33, day: place % 33 })
}

/// Those of the years at the borders, in each calendar by its code, and each so many times; ten times as often in the months there.
pub fn dates(times: usize) -> impl Iterator<Item = (u32, Date)> {
    let years = (0..6).flat_map(|calendar| YEARS.map(|year| (calendar, year)));
    let dates = years.flat_map(|(calendar, year)| dates_of_year(year).map(move |date| (calendar, date)));
    dates.flat_map(move |(calendar, date)| {
        let is_often = MONTHS.contains(&(date.year, date.month));
        repeat_n((calendar, date), if is_often { 10 * times } else { times })
    })
}

/// Zero or the last number that is possible; now and then the first that is not, or the greatest that can be given.
fn number(random: &mut Random, last: u32, greatest: u32) -> u32 {
    if random.one_in(8) { random.pick(&[last + 1, greatest]) } else { random.pick(&[0, last]) }
}

/// The date with a time of day.
pub fn fields(random: &mut Random, date: Date) -> Fields {
    let Date { year, month, day } = date;
    let [hour, minute, second, microsecond] = [23, 59, 59, 999_999].map(|last| number(random, last, u32::MAX));
    Fields { year, month, day, hour, minute, second, microsecond }
}

/// A time of day as it is written after a date, or nothing; with a zone or without.
fn time(random: &mut Random) -> String {
    let [hour, minute, second, hours, minutes] = [23, 59, 59, 23, 59].map(|last| number(random, last, 99));
    let (mark, sign) = (random.pick(&["T", " "]), random.pick(&["+", "-"]));
    let clock = match random.below(4) {
        0 => return String::new(),
        1 => format!("{hour}"),
        2 => format!("{hour}:{minute}"),
        _ => format!("{hour}:{minute}:{second}.{}", random.pick(&["0", "999999"])),
    };
    let zone = match random.below(3) {
        0 => String::new(),
        1 => format!("{sign}{hours:02}"),
        _ => format!("{sign}{hours:02}:{minutes:02}"),
    };
    format!("{mark}{clock}{zone}")
}

/// The calendar's name and the date as it is written.
pub fn text(random: &mut Random, calendar: u32, date: Date) -> (&'static str, String) {
    let Date { year, month, day } = date;
    (NAMES[calendar as usize], format!("{year}-{month}-{day}{}", time(random)))
}
