//! A local time as fields, its zone, and whether there is such a time (document 02, CR 5).
//! A month or a day of a month is possible if a walk through some years of all calendars meets it, a field of the clock or of a zone if so
//! many of its units are less than one of the next. A date is sought among the days of its calendar, and then among those it dropped.

use crate::calendar::{CALENDARS, Calendar, Date};
use crate::days::day_of_date;
use crate::next_day::day_after;
use crate::refusal::Refusal;
use std::collections::BTreeSet;
use std::sync::OnceLock;

pub const DAY: i128 = 86_400_000_000;
pub const HOUR: i128 = 3_600_000_000;
pub const MINUTE: i128 = 60_000_000;
pub const SECOND: i128 = 1_000_000;

#[derive(Clone, Copy, PartialEq, Eq, Debug)]
pub struct Fields {
    pub date: Date,
    pub hour: u32,
    pub minute: u32,
    pub second: u32,
    pub microsecond: u32,
}

impl Fields {
    pub const fn midnight(date: Date) -> Fields {
        Fields { date, hour: 0, minute: 0, second: 0, microsecond: 0 }
    }

    fn has_possible_clock(self) -> bool {
        is_part(self.hour, HOUR, DAY)
            && is_part(self.minute, MINUTE, HOUR)
            && is_part(self.second, SECOND, MINUTE)
            && is_part(self.microsecond, 1, SECOND)
    }
}

/// What local time is ahead of UTC, or behind it.
#[derive(Clone, Copy, PartialEq, Eq, Debug)]
pub struct Zone {
    pub is_behind: bool,
    pub hours: u32,
    pub minutes: u32,
}

pub const UTC: Zone = Zone { is_behind: false, hours: 0, minutes: 0 };

impl Zone {
    fn is_possible(self) -> bool {
        is_part(self.hours, HOUR, DAY) && is_part(self.minutes, MINUTE, HOUR)
    }
}

/// Whether so many of a unit are less than one of the next.
pub fn is_part(number: u32, unit: i128, next: i128) -> bool {
    number as i128 * unit < next
}

/// The months, and the days of a month, of the dates that a walk meets.
#[derive(Default)]
struct Met {
    months: BTreeSet<u32>,
    days: BTreeSet<u32>,
}

fn met() -> &'static Met {
    static MET: OnceLock<Met> = OnceLock::new();
    MET.get_or_init(|| {
        let mut met = Met::default();
        for calendar in CALENDARS {
            let mut date = Date::new(1970, 1, 1);
            while date.year < 1974 {
                met.months.insert(date.month);
                met.days.insert(date.day);
                date = day_after(calendar, date);
            }
        }
        met
    })
}

/// Refuses a date whose month or day is not possible, or that has something beside it that is not.
pub fn possible(date: Date, is_beside_possible: bool) -> Result<(), Refusal> {
    let is_possible = met().months.contains(&date.month) && met().days.contains(&date.day) && is_beside_possible;
    if is_possible { Ok(()) } else { Err(Refusal::ImpossibleField) }
}

/// Why a calendar has no such date, whose month and day are possible.
pub fn lack(calendar: Calendar, date: Date) -> Refusal {
    match calendar {
        Calendar::Standard(cutover) if cutover.dropped().any(|dropped| dropped == date) => Refusal::DroppedDate,
        _ => Refusal::MissingDate,
    }
}

/// The day number of a local time's date. A year past the range is refused first, then any field that is not possible, then a date that
/// the calendar lacks.
pub fn tested_day(calendar: Calendar, local: Fields, zone: Zone) -> Result<i64, Refusal> {
    if !(-9999..=9999).contains(&local.date.year) {
        return Err(Refusal::OutOfRange);
    }
    possible(local.date, local.has_possible_clock() && zone.is_possible())?;
    day_of_date(calendar, local.date).ok_or_else(|| lack(calendar, local.date))
}
