//! Axes, and offsets on them.

use crate::boundary;
use crate::calendar::{Calendar, or_of_1582};
use crate::refusal::{Refusal, RefusedRun, tested};
use answers::{AxisAnswer, Date, Fields, RunAnswer};

#[derive(Clone, Copy, PartialEq, Eq, Hash, Debug)]
pub enum Period {
    Second,
    Millisecond,
    Minute,
    Hour,
    Day,
    Week,
    Month,
    Year,
}

const PERIODS: [Period; 8] = [
    Period::Second,
    Period::Millisecond,
    Period::Minute,
    Period::Hour,
    Period::Day,
    Period::Week,
    Period::Month,
    Period::Year,
];

#[derive(Clone, Copy, PartialEq, Eq, Hash, Debug)]
pub enum Mode {
    Fixed,
    Calendar,
}

#[derive(Clone, Copy, PartialEq, Eq, Hash, Debug)]
pub struct Axis {
    pub calendar: Calendar,
    pub period: Period,
    pub mode: Mode,
    pub reference: i64,
    /// The first Gregorian date of `Calendar::Standard`; the other calendars do not look at it.
    pub cutover: Date,
}

#[derive(Clone, Copy, PartialEq, Debug)]
pub enum Offset {
    Whole(i64),
    Double(f64),
}

impl From<i64> for Offset {
    fn from(offset: i64) -> Offset {
        Offset::Whole(offset)
    }
}

impl From<i32> for Offset {
    fn from(offset: i32) -> Offset {
        Offset::Whole(offset.into())
    }
}

impl From<f64> for Offset {
    fn from(offset: f64) -> Offset {
        Offset::Double(offset)
    }
}

/// What an offset or an ISO text is read as.
#[derive(Clone, Copy, PartialEq, Eq, Debug)]
pub struct Reading {
    pub instant: i64,
    /// Whether the instant is exactly what was read and not the nearest microsecond to it.
    pub exact: bool,
    /// The reference's day of the month less the given one: calendar months and years step a day that the month lacks back until it
    /// exists, by at most 3 days, but in the month of which `Standard` dropped dates by at most as many as these, or, before a cutover that is
    /// the first of a month, at most from a 31st to the last day kept. It is 0 in fixed mode, in shorter periods and for ISO texts.
    pub days_back: u32,
}

impl Reading {
    pub(crate) fn of_answer(answer: answers::Reading) -> Result<Reading, Refusal> {
        let answers::Reading { number, instant, exact, days_back } = answer;
        tested(number).map(|()| Reading { instant, exact: exact != 0, days_back })
    }
}

/// A run that is read: how many offsets it has, and how many of them were rounded.
#[derive(Clone, Copy, PartialEq, Eq, Debug)]
pub struct Run {
    pub length: usize,
    pub rounded: usize,
}

impl Run {
    fn of_answer(answer: RunAnswer) -> Result<Run, RefusedRun> {
        let RunAnswer { number, place, length, rounded } = answer;
        tested(number).map(|()| Run { length, rounded }).map_err(|refusal| RefusedRun { refusal, place })
    }
}

impl Axis {
    /// The axis of a units text, such as `days since 1850-01-01`, in the calendar of a name with a cutover, or with that of 1582.
    pub fn of_units(calendar: &str, cutover: impl Into<Option<Date>>, units: &str) -> Result<Axis, Refusal> {
        Axis::of_answer(boundary::read_units(calendar.as_bytes(), or_of_1582(cutover), units.as_bytes()))
    }

    pub(crate) fn of_answer(answer: AxisAnswer) -> Result<Axis, Refusal> {
        tested(answer.number)?;
        let answers::Axis { calendar, period, mode, reference, cutover } = answer.axis;
        Ok(Axis {
            calendar: Calendar::of_code(calendar).expect("a calendar's code"),
            period: PERIODS[period as usize],
            mode: if mode == 0 { Mode::Fixed } else { Mode::Calendar },
            reference,
            cutover,
        })
    }

    fn codes(self) -> answers::Axis {
        let Axis { calendar, period, mode, reference, cutover } = self;
        answers::Axis { calendar: calendar.code(), period: period as u32, mode: mode as u32, reference, cutover }
    }

    /// The ISO text of an instant in the axis's calendar, with the axis's cutover.
    pub fn iso_text(self, instant: i64) -> Result<String, Refusal> {
        self.calendar.iso_text(self.cutover, instant)
    }

    /// The fields of an instant in the axis's calendar, with the axis's cutover.
    pub fn fields_of(self, instant: i64) -> Result<Fields, Refusal> {
        self.calendar.fields_of(self.cutover, instant)
    }

    pub fn read(self, offset: impl Into<Offset>) -> Result<Reading, Refusal> {
        Reading::of_answer(match offset.into() {
            Offset::Whole(offset) => boundary::read_whole(self.codes(), offset),
            Offset::Double(offset) => boundary::read_double(self.codes(), offset),
        })
    }

    /// The whole offset that reads as an instant.
    pub fn write(self, instant: i64) -> Result<i64, Refusal> {
        let answer = boundary::write_instant(self.codes(), instant);
        tested(answer.number).map(|()| answer.offset)
    }

    /// The whole offset that reads as the instant of some fields.
    pub fn write_fields(self, fields: Fields) -> Result<i64, Refusal> {
        let answer = boundary::write_fields(self.codes(), fields);
        tested(answer.number).map(|()| answer.offset)
    }

    /// Reads every offset to its place of the destination, or none.
    pub fn read_wholes(self, source: &[i64], destination: &mut [i64]) -> Result<Run, RefusedRun> {
        Run::of_answer(boundary::read_wholes(self.codes(), source, destination))
    }

    /// Reads every offset to its place of the destination, or none.
    pub fn read_doubles(self, source: &[f64], destination: &mut [i64]) -> Result<Run, RefusedRun> {
        Run::of_answer(boundary::read_doubles(self.codes(), source, destination))
    }
}
