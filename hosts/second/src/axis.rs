//! Axes: a calendar, a period, a mode, a reference instant and a cutover (document 01, "Instants and axes", "Periods"; document 02, CR 8).

use crate::calendar::{Calendar, Date};

#[derive(Clone, Copy, PartialEq, Eq, Debug)]
pub enum Period {
    Second,
    Millisecond,
    Minute,
    Hour,
    Day,
    Week,
    Month,
    Year,
}

pub const PERIODS: [Period; 8] = [
    Period::Second,
    Period::Millisecond,
    Period::Minute,
    Period::Hour,
    Period::Day,
    Period::Week,
    Period::Month,
    Period::Year,
];

impl Period {
    pub fn microseconds(self) -> i64 {
        match self {
            Period::Millisecond => 1_000,
            Period::Second => 1_000_000,
            Period::Minute => 60_000_000,
            Period::Hour => 3_600_000_000,
            Period::Day => 86_400_000_000,
            Period::Week => 604_800_000_000,
            Period::Month => 2_629_743_831_225,
            Period::Year => 31_556_925_974_700,
        }
    }
}

#[derive(Clone, Copy, PartialEq, Eq, Debug)]
pub enum Mode {
    Fixed,
    Calendar,
}

#[derive(Clone, Copy, PartialEq, Eq, Debug)]
pub struct Axis {
    pub calendar: Calendar,
    pub period: Period,
    pub mode: Mode,
    pub reference: i64,
    /// As it was given; `standard` has the same in its calendar.
    pub cutover: Date,
}
