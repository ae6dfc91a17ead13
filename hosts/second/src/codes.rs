//! Between this library's types and the numbers of the C boundary.

use crate::axis::{Axis, Mode, PERIODS};
use crate::calendar::{CALENDARS, Calendar, Date};
use crate::fields::Fields;
use crate::reading::Reading;
use crate::refusal::Refusal;
use crate::runs::{Counts, Refused};

/// The calendar of a code, whatever its cutover.
fn known_calendar(code: u32) -> Result<Calendar, Refusal> {
    CALENDARS.get(code as usize).copied().ok_or(Refusal::UnknownCalendar)
}

pub fn calendar_of(code: u32, cutover: answers::Date) -> Result<Calendar, Refusal> {
    known_calendar(code)?.with_cutover(date_of_numbers(cutover))
}

pub fn axis_of(codes: answers::Axis) -> Result<Axis, Refusal> {
    let calendar = known_calendar(codes.calendar)?;
    let period = PERIODS.get(codes.period as usize).copied().ok_or(Refusal::IllFormed)?;
    let mode = match codes.mode {
        0 => Mode::Fixed,
        1 => Mode::Calendar,
        _ => return Err(Refusal::IllFormed),
    };
    let cutover = date_of_numbers(codes.cutover);
    Ok(Axis { calendar: calendar.with_cutover(cutover)?, period, mode, reference: codes.reference, cutover })
}

fn axis_codes(axis: Axis) -> answers::Axis {
    let Axis { calendar, period, mode, reference, cutover } = axis;
    let [calendar, period, mode] = [calendar.code(), period as u32, mode as u32];
    answers::Axis { calendar, period, mode, reference, cutover: date_numbers(cutover) }
}

pub fn axis_answer(result: Result<Axis, Refusal>) -> answers::AxisAnswer {
    match result {
        Ok(axis) => answers::AxisAnswer { number: 0, axis: axis_codes(axis) },
        Err(refusal) => answers::AxisAnswer { number: refusal.number(), ..Default::default() },
    }
}

pub fn date_numbers(date: Date) -> answers::Date {
    let Date { year, month, day } = date;
    answers::Date { year, month, day }
}

pub fn date_of_numbers(numbers: answers::Date) -> Date {
    Date::new(numbers.year, numbers.month, numbers.day)
}

pub fn field_numbers(fields: Fields) -> answers::Fields {
    let Fields { date: Date { year, month, day }, hour, minute, second, microsecond } = fields;
    answers::Fields { year, month, day, hour, minute, second, microsecond }
}

pub fn fields_of_numbers(numbers: answers::Fields) -> Fields {
    let answers::Fields { year, month, day, hour, minute, second, microsecond } = numbers;
    Fields { date: Date::new(year, month, day), hour, minute, second, microsecond }
}

pub fn reading_answer(result: Result<Reading, Refusal>) -> answers::Reading {
    match result {
        Ok(Reading { instant, exact, days_back }) => {
            answers::Reading { number: 0, instant, exact: exact as u8, days_back }
        }
        Err(refusal) => answers::Reading { number: refusal.number(), ..Default::default() },
    }
}

pub fn offset_answer(result: Result<i64, Refusal>) -> answers::OffsetAnswer {
    match result {
        Ok(offset) => answers::OffsetAnswer { number: 0, offset },
        Err(refusal) => answers::OffsetAnswer { number: refusal.number(), ..Default::default() },
    }
}

pub fn run_answer(result: Result<Counts, Refused>) -> answers::RunAnswer {
    match result {
        Ok(Counts { length, rounded }) => answers::RunAnswer { number: 0, place: 0, length, rounded },
        Err(Refused { refusal, place }) => answers::RunAnswer { number: refusal.number(), place, ..Default::default() },
    }
}
