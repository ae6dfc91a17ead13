//! A calendar with its cutover: which cutovers `standard` may have, and the dates that they drop.

use super::days::gregorian_month_length;
use answers::{CUTOVER_1582, Date};

/// A known calendar by its code, and its cutover, at which `standard` alone looks.
#[derive(Clone, Copy)]
pub struct Calendar {
    pub code: u32,
    pub cutover: Date,
}

pub const PROLEPTIC_GREGORIAN: Calendar = Calendar { code: 1, cutover: CUTOVER_1582 };

/// How many dates an allowed cutover drops.
fn dropped_by(cutover: Date) -> u32 {
    let month = (cutover.year, cutover.month);
    10 + (month >= (1700, 3)) as u32 + (month >= (1800, 3)) as u32 + (month >= (1900, 3)) as u32
}

fn is_allowed(cutover: Date) -> bool {
    let Date { year, month, day } = cutover;
    let is_in_span = (year, month, day) >= (1582, 10, 15) && year <= 1923 && (1..=12).contains(&month);
    is_in_span && (day == 1 || day >= dropped_by(cutover) + 2 && day <= gregorian_month_length(year, month))
}

/// The calendar of a code with a cutover, or the number of the refusal.
#[inline]
pub fn calendar(code: u32, cutover: Date) -> Result<Calendar, u32> {
    match code {
        6.. => Err(2),
        0 if cutover != CUTOVER_1582 && !is_allowed(cutover) => Err(16),
        _ => Ok(Calendar { code, cutover }),
    }
}

impl Calendar {
    /// Whether the Gregorian rule gives a month of `standard` its length.
    pub fn is_gregorian_month(self, year: i64, month: u32) -> bool {
        (year, month) >= (self.cutover.year, self.cutover.month)
    }

    /// The day of the month that comes before a dropped date of `standard`, if it is one.
    pub fn kept_before(self, date: Date, julian_length: u32) -> Option<u32> {
        let Calendar { code, cutover } = self;
        if code != 0 {
            return None;
        }
        let (month, end) = match cutover {
            Date { year, month: 1, day: 1 } => ((year - 1, 12), julian_length + 1),
            Date { year, month, day: 1 } => ((year, month - 1), julian_length + 1),
            Date { year, month, day } => ((year, month), day),
        };
        if (date.year, date.month) != month {
            return None;
        }
        let first = end - dropped_by(cutover);
        (first..end).contains(&date.day).then_some(first - 1)
    }
}
