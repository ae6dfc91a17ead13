//! The six calendars, their names, and how long their months are (document 01, "Calendars"; document 02, CR 8).

use crate::cutover::{Cutover, OF_1582};
use crate::refusal::Refusal;

#[derive(Clone, Copy, PartialEq, Eq, Debug)]
pub enum Calendar {
    /// With its cutover.
    Standard(Cutover),
    ProlepticGregorian,
    Julian,
    Noleap,
    AllLeap,
    Day360,
}

/// `standard` with the cutover of 1582.
pub const STANDARD: Calendar = Calendar::Standard(OF_1582);

pub const CALENDARS: [Calendar; 6] =
    [STANDARD, Calendar::ProlepticGregorian, Calendar::Julian, Calendar::Noleap, Calendar::AllLeap, Calendar::Day360];

impl Calendar {
    pub fn code(self) -> u32 {
        match self {
            Calendar::Standard(_) => 0,
            Calendar::ProlepticGregorian => 1,
            Calendar::Julian => 2,
            Calendar::Noleap => 3,
            Calendar::AllLeap => 4,
            Calendar::Day360 => 5,
        }
    }

    /// The calendar with a cutover, at which `standard` alone looks.
    pub fn with_cutover(self, first: Date) -> Result<Calendar, Refusal> {
        match self {
            Calendar::Standard(_) => Cutover::of_date(first).map(Calendar::Standard),
            _ => Ok(self),
        }
    }
}

/// Dates are compared as they are written.
#[derive(Clone, Copy, PartialEq, Eq, PartialOrd, Ord, Debug)]
pub struct Date {
    pub year: i64,
    pub month: u32,
    pub day: u32,
}

impl Date {
    pub const fn new(year: i64, month: u32, day: u32) -> Date {
        Date { year, month, day }
    }
}

/// The calendar that a name stands for, `standard` with the cutover of 1582; upper and lower case differ.
pub fn calendar_named(name: &[u8]) -> Option<Calendar> {
    match name {
        b"" | b"standard" | b"gregorian" => Some(STANDARD),
        b"proleptic_gregorian" | b"ISO8601" => Some(Calendar::ProlepticGregorian),
        b"julian" => Some(Calendar::Julian),
        b"noleap" | b"no_leap" | b"365_day" => Some(Calendar::Noleap),
        b"all_leap" | b"366_day" => Some(Calendar::AllLeap),
        b"uniform30day" | b"360_day" => Some(Calendar::Day360),
        _ => None,
    }
}

/// Every fourth year, in calendars without a year 0: before year 1 these are -1, -5, -9 and so on.
fn is_julian_leap(year: i64) -> bool {
    if year < 0 { year.rem_euclid(4) == 3 } else { year.rem_euclid(4) == 0 }
}

fn is_gregorian_leap(year: i64) -> bool {
    year.rem_euclid(4) == 0 && year.rem_euclid(100) != 0 || year.rem_euclid(400) == 0
}

/// Whether a date's year is a leap year, by the rule that holds on that date.
fn is_leap(calendar: Calendar, date: Date) -> bool {
    match calendar {
        Calendar::Standard(cutover) if date >= cutover.first => is_gregorian_leap(date.year),
        Calendar::Standard(_) | Calendar::Julian => is_julian_leap(date.year),
        Calendar::ProlepticGregorian => is_gregorian_leap(date.year),
        Calendar::Noleap | Calendar::Day360 => false,
        Calendar::AllLeap => true,
    }
}

const COMMON: [u32; 12] = [31, 28, 31, 30, 31, 30, 31, 31, 30, 31, 30, 31];
const LEAP: [u32; 12] = [31, 29, 31, 30, 31, 30, 31, 31, 30, 31, 30, 31];

/// The number of the last day of a date's month, by the rule that holds on that date.
pub fn last_day_of_month(calendar: Calendar, date: Date) -> u32 {
    let lengths = if calendar == Calendar::Day360 {
        [30; 12]
    } else if is_leap(calendar, date) {
        LEAP
    } else {
        COMMON
    };
    lengths[date.month as usize - 1]
}
