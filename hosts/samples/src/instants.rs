//! Instants of a calendar: over all its years, in those of the cutovers, or near today.

use crate::Random;
use second::calendar::{CALENDARS, Date};
use second::days::{date_of_day, day_of_date};
use std::sync::OnceLock;

pub const DAY: i64 = 86_400_000_000;

/// The first instant of a year that the calendar has, `standard` with the cutover of 1582.
pub fn first_of_year(calendar: u32, year: i64) -> i64 {
    day_of_date(CALENDARS[calendar as usize], Date::new(year, 1, 1)).expect("a year of the calendar") * DAY
}

/// The first instant of year -9999 and the last of year 9999, which are the same for every cutover.
fn ends(calendar: u32) -> (i64, i64) {
    static ENDS: [OnceLock<(i64, i64)>; 6] = [const { OnceLock::new() }; 6];
    *ENDS[calendar as usize].get_or_init(|| {
        let start = first_of_year(calendar, 9999) / DAY;
        let has_day = |day: &i64| date_of_day(CALENDARS[calendar as usize], *day as i128).is_some();
        let end = start + (start..).take_while(has_day).count() as i64;
        (first_of_year(calendar, -9999), end * DAY - 1)
    })
}

pub fn first(calendar: u32) -> i64 {
    ends(calendar).0
}

pub fn last(calendar: u32) -> i64 {
    ends(calendar).1
}

pub fn over_all_years(random: &mut Random, calendar: u32, count: usize) -> Vec<i64> {
    let (least, most) = ends(calendar);
    (0..count).map(|_| random.between(least, most)).collect()
}

pub fn from_1582_to_1923(random: &mut Random, calendar: u32, count: usize) -> Vec<i64> {
    let (least, end) = (first_of_year(calendar, 1582), first_of_year(calendar, 1924));
    (0..count).map(|_| random.between(least, end - 1)).collect()
}

pub fn from_1850_to_2100(random: &mut Random, calendar: u32, count: usize) -> Vec<i64> {
    let (least, end) = (first_of_year(calendar, 1850), first_of_year(calendar, 2101));
    (0..count).map(|_| random.between(least, end - 1)).collect()
}
