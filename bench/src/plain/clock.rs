//! Instants and their fields.

use super::cutover::{Calendar, calendar};
use super::days;
use answers::{Date, Fields, FieldsAnswer};

pub const DAY: i64 = 86_400_000_000;

pub fn is_in_range(code: u32, instant: i64) -> bool {
    let (first, last) = days::range(code);
    first * DAY <= instant && instant < (last + 1) * DAY
}

/// The fields of an instant of a known calendar, in its range.
pub fn fields(calendar: Calendar, instant: i64) -> Fields {
    let date = days::date(calendar, instant.div_euclid(DAY));
    let time = instant.rem_euclid(DAY) as u64;
    let (seconds, microsecond) = (time / 1_000_000, time % 1_000_000);
    Fields {
        year: date.year,
        month: date.month,
        day: date.day,
        hour: (seconds / 3600) as u32,
        minute: (seconds / 60 % 60) as u32,
        second: (seconds % 60) as u32,
        microsecond: microsecond as u32,
    }
}

pub fn date_of(fields: Fields) -> Date {
    Date { year: fields.year, month: fields.month, day: fields.day }
}

/// The number of the refusal of fields whose year is in range, or 0.
pub fn refusal(calendar: Calendar, fields: Fields) -> u32 {
    let clock = fields.hour < 24 && fields.minute < 60 && fields.second < 60 && fields.microsecond < 1_000_000;
    if clock { days::refusal(calendar, date_of(fields)) } else { 4 }
}

/// The instant of fields that exist.
pub fn instant(calendar: Calendar, fields: Fields) -> i64 {
    let seconds = (fields.hour as i64 * 60 + fields.minute as i64) * 60 + fields.second as i64;
    days::day(calendar, date_of(fields)) * DAY + seconds * 1_000_000 + fields.microsecond as i64
}

#[inline(never)]
pub extern "C" fn fields_of(code: u32, cutover: Date, instant: i64) -> FieldsAnswer {
    match calendar(code, cutover) {
        Ok(calendar) if is_in_range(code, instant) => FieldsAnswer { number: 0, fields: fields(calendar, instant) },
        Ok(_) => FieldsAnswer { number: 5, ..Default::default() },
        Err(number) => FieldsAnswer { number, ..Default::default() },
    }
}
