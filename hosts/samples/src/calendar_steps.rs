//! Steps by calendar months and years from every day of a year, and to the month of a cutover's dropped dates: to months that have the day,
//! and to months that lack it.

use crate::Random;
use crate::borders::dates_of_year;
use crate::cutovers::{self, allowed_at};
use crate::instants::DAY;
use answers::{Axis, Date};
use second::boundary::day_number_of_date;

const MONTH: u32 = 6;
const YEAR: u32 = 7;

/// The ends of the range, the years about year 0 and about the cutover of 1582, and others that are leap years in some calendars or in none.
pub const YEARS: [i64; 12] = [-9999, -9998, -1, 0, 1, 1581, 1582, 1583, 1900, 2000, 2023, 9999];

/// Offsets up to so many steps, and to the month of the dropped dates, which lies a year nearer where the calendar lacks a year 0 between.
fn offsets(around: i64, to_dropped: i64, year: i64) -> impl Iterator<Item = i64> {
    (-around..=around).chain([to_dropped, to_dropped - year])
}

/// The offsets from a date by months, over more than a year both ways, and by years, over more than four.
fn steps(date: Date, dropped: second::calendar::Date) -> impl Iterator<Item = (u32, i64)> {
    let years = dropped.year - date.year;
    let to_dropped = 12 * years + dropped.month as i64 - date.month as i64;
    let by_months = offsets(13, to_dropped, 12).map(|months| (MONTH, months));
    by_months.chain(offsets(5, years, 1).map(|years| (YEAR, years)))
}

/// Axes with an allowed cutover and a reference on each day of a year, at a time of day, and offsets on them.
pub fn from_days_of_year(calendar: u32, cutover: Date, year: i64, time: i64) -> impl Iterator<Item = (Axis, i64)> {
    let dropped = allowed_at(cutover).and_then(|cutover| cutover.dropped().next()).expect("an allowed cutover");
    let days = dates_of_year(year).map(move |date| (date, day_number_of_date(calendar, cutover, date)));
    days.filter(|(_, answer)| answer.number == 0).flat_map(move |(date, answer)| {
        let reference = answer.day * DAY + time;
        steps(date, dropped)
            .map(move |(period, offset)| (Axis { calendar, period, mode: 1, reference, cutover }, offset))
    })
}

/// An axis with an allowed cutover, a step to the month of its dropped dates from some day of the month, or to a month beside it.
pub fn about_a_cutover(random: &mut Random) -> (Axis, i64) {
    let (cutover, day) = (cutovers::good(random), 1 + random.below(31) as u32);
    let (axis, offset) = to_dropped_dates(cutover, day);
    (axis, offset + random.pick(&[0, 0, 0, -1, 1]))
}

/// Months from a day of January 1500 to the month of the dropped dates, on an axis with an allowed cutover.
pub fn to_dropped_dates(cutover: Date, day: u32) -> (Axis, i64) {
    let dropped = allowed_at(cutover).and_then(|cutover| cutover.dropped().next()).expect("an allowed cutover");
    let reference = day_number_of_date(0, cutover, Date { year: 1500, month: 1, day }).day * DAY;
    let months = 12 * (dropped.year - 1500) + dropped.month as i64 - 1;
    (Axis { calendar: 0, period: MONTH, mode: 1, reference, cutover }, months)
}
