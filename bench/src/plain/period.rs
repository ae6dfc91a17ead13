//! Periods and axes by their codes.

use super::clock;
use super::cutover::{self, Calendar};
use answers::Axis;

pub const MONTH: u32 = 6;
pub const YEAR: u32 = 7;

const MICROSECONDS: [i64; 8] = [
    1_000_000,
    1_000,
    60_000_000,
    3_600_000_000,
    86_400_000_000,
    604_800_000_000,
    2_629_743_831_225,
    31_556_925_974_700,
];

/// The microseconds of a known period.
pub fn microseconds(period: u32) -> i64 {
    MICROSECONDS[period as usize]
}

/// Whether offsets move the month or the year.
pub fn is_calendar_step(axis: Axis) -> bool {
    axis.mode == 1 && axis.period >= MONTH
}

/// The calendar of a good axis.
pub fn calendar(axis: Axis) -> Calendar {
    Calendar { code: axis.calendar, cutover: axis.cutover }
}

/// The refusal of an axis, or 0.
pub fn refusal(axis: Axis) -> u32 {
    match cutover::calendar(axis.calendar, axis.cutover) {
        Err(2) => 2,
        _ if axis.period > 7 || axis.mode > 1 => 3,
        Err(number) => number,
        Ok(_) if !clock::is_in_range(axis.calendar, axis.reference) => 5,
        Ok(_) => 0,
    }
}
