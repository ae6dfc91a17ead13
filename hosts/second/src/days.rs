//! Every day, month and year from -9999 to 9999 of a calendar in order, listed by the next-day rule.
//! A day number, a month and a year are found by their places in these lists, by no formula.
//! A list is made once for each calendar, when it is first asked for. `standard` has that of `julian` up to the last day kept and then that
//! of `proleptic_gregorian` from its cutover on, where these two are stepped on together with the cutover.

use crate::calendar::{Calendar, Date};
use crate::cutover::{Cutover, OF_1582};
use crate::next_day::day_after;
use std::cmp::Ordering;
use std::sync::OnceLock;

const FIRST: Date = Date::new(-9999, 1, 1);
const EPOCH: Date = Date::new(1970, 1, 1);

/// A month or a year, and the place of its first day among the days.
struct Start {
    year: i64,
    month: u32,
    place: usize,
}

#[derive(Default)]
struct Days {
    dates: Vec<u32>,
    months: Vec<Start>,
    years: Vec<Start>,
    epoch: usize,
    last_kept_of_1582: usize,
    cutover_of_1582: usize,
}

/// A date in 24 bits: year, month and day, so that the later date is the greater number.
fn packed(date: Date) -> u32 {
    ((date.year + 9999) as u32) << 9 | date.month << 5 | date.day
}

fn unpacked(bits: u32) -> Date {
    Date::new((bits >> 9) as i64 - 9999, bits >> 5 & 15, bits & 31)
}

impl Days {
    fn listed(calendar: Calendar) -> Days {
        let mut days = Days { dates: Vec::with_capacity(7_320_000), ..Days::default() };
        let mut date = FIRST;
        while date.year <= 9999 {
            days.add(date);
            date = day_after(calendar, date);
        }
        days
    }

    fn add(&mut self, date: Date) {
        let place = self.dates.len();
        let start = || Start { year: date.year, month: date.month, place };
        self.dates.push(packed(date));
        if date.day == 1 {
            self.months.push(start());
        }
        if date.day == 1 && date.month == 1 {
            self.years.push(start());
        }
        match date {
            EPOCH => self.epoch = place,
            _ if date == OF_1582.last_kept => self.last_kept_of_1582 = place,
            _ if date == OF_1582.first => self.cutover_of_1582 = place,
            _ => {}
        }
    }
}

/// The list of a calendar other than `standard`.
fn days(calendar: Calendar) -> &'static Days {
    static LISTS: [OnceLock<Days>; 6] = [const { OnceLock::new() }; 6];
    LISTS[calendar.code() as usize].get_or_init(|| Days::listed(calendar))
}

/// What comes in order: one list, or the first part of one and the last of another.
struct Joined<T: 'static>(&'static [T], &'static [T]);

impl<T> Joined<T> {
    fn get(&self, place: usize) -> Option<&'static T> {
        self.0.get(place).or_else(|| self.1.get(place.checked_sub(self.0.len())?))
    }

    fn place_of(&self, order: impl Fn(&T) -> Ordering) -> Option<usize> {
        let in_second = || self.1.binary_search_by(&order).ok().map(|place| self.0.len() + place);
        self.0.binary_search_by(&order).ok().or_else(in_second)
    }

    /// What comes so many steps after a place.
    fn after(&self, place: usize, steps: i128) -> Option<&'static T> {
        self.get(usize::try_from(place as i128 + steps).ok()?)
    }
}

/// The lists that `standard` has its days from, and the place in each at which it changes from one to the other.
struct Change {
    julian: &'static Days,
    last_kept: usize,
    gregorian: &'static Days,
    first: usize,
}

impl Change {
    fn at(cutover: Cutover) -> Change {
        let (julian, gregorian) = (days(Calendar::Julian), days(Calendar::ProlepticGregorian));
        let last_kept = julian.last_kept_of_1582 + cutover.days_later;
        let first = gregorian.cutover_of_1582 + cutover.days_later;
        Change { julian, last_kept, gregorian, first }
    }

    /// Those that start on the days of each list.
    fn starts(&self, of: fn(&Days) -> &[Start]) -> Joined<Start> {
        let (before, after) = (of(self.julian), of(self.gregorian));
        let kept = before.partition_point(|start| start.place <= self.last_kept);
        Joined(&before[..kept], &after[after.partition_point(|start| start.place < self.first)..])
    }
}

/// The dates of a calendar in order, and the place of 1970-01-01.
fn dates(calendar: Calendar) -> (Joined<u32>, usize) {
    match calendar {
        Calendar::Standard(cutover) => {
            let Change { julian, last_kept, gregorian, first } = Change::at(cutover);
            let dates = Joined(&julian.dates[..=last_kept], &gregorian.dates[first..]);
            (dates, last_kept + 1 + gregorian.epoch - first)
        }
        _ => (Joined(&days(calendar).dates, &[]), days(calendar).epoch),
    }
}

fn starts(calendar: Calendar, of: fn(&Days) -> &[Start]) -> Joined<Start> {
    match calendar {
        Calendar::Standard(cutover) => Change::at(cutover).starts(of),
        _ => Joined(of(days(calendar)), &[]),
    }
}

/// The date of a day number; none past the years -9999 to 9999.
pub fn date_of_day(calendar: Calendar, day: i128) -> Option<Date> {
    let (dates, epoch) = dates(calendar);
    dates.after(epoch, day).map(|&bits| unpacked(bits))
}

/// The day number of a date; none where the date does not exist or lies past those years.
pub fn day_of_date(calendar: Calendar, date: Date) -> Option<i64> {
    let (dates, epoch) = dates(calendar);
    dates.place_of(|&bits| unpacked(bits).cmp(&date)).map(|place| place as i64 - epoch as i64)
}

/// The year and month so many months after another.
pub fn month_after(calendar: Calendar, year: i64, month: u32, steps: i64) -> Option<(i64, u32)> {
    let months = starts(calendar, |days| &days.months);
    let place = months.place_of(|start| (start.year, start.month).cmp(&(year, month)))?;
    months.after(place, steps as i128).map(|start| (start.year, start.month))
}

/// The year so many years after another.
pub fn year_after(calendar: Calendar, year: i64, steps: i64) -> Option<i64> {
    let years = starts(calendar, |days| &days.years);
    let place = years.place_of(|start| start.year.cmp(&year))?;
    years.after(place, steps as i128).map(|start| start.year)
}
