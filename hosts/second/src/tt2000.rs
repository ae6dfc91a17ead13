//! TT2000 read as UTC fields and written from them (document 02, CR 6): the day is sought among the walked days of UTC, and the clock
//! counted from its start.

use crate::calendar::{Date, last_day_of_month};
use crate::days::{date_of_day, day_of_date};
use crate::fields::{is_part, lack, possible};
use crate::leap_seconds::{CALENDAR, DAY, LeapSeconds, NANOSECONDS};
use crate::refusal::Refusal;
use answers::UtcFields;

const MINUTE: i128 = 60;
const HOUR: i128 = 3600;

/// Hour, minute and second of so many seconds since a day began, the leap second among them.
fn clock(seconds: i128) -> (i128, i128, i128) {
    match seconds {
        DAY => (23, 59, 60),
        _ => (seconds / HOUR, seconds % HOUR / MINUTE, seconds % MINUTE),
    }
}

pub fn read(leap_seconds: &[u8], number: i64) -> Result<UtcFields, Refusal> {
    let (day, start) = LeapSeconds::listed(leap_seconds)?.day_at(number).ok_or(Refusal::Before1972)?;
    let Date { year, month, day } = date_of_day(CALENDAR, day as i128).expect("a listed day");
    let since = number as i128 - start as i128;
    let (hour, minute, second) = clock(since / NANOSECONDS);
    let [hour, minute, second, nanosecond] = [hour, minute, second, since % NANOSECONDS].map(|part| part as u32);
    Ok(UtcFields { year, month, day, hour, minute, second, nanosecond })
}

fn has_possible_clock(leap_seconds: &LeapSeconds, date: Date, fields: UtcFields) -> bool {
    let UtcFields { hour, minute, second, nanosecond, .. } = fields;
    let is_leap_second = (hour, minute, second) == (23, 59, 60) && leap_seconds.eves.contains(&date);
    is_part(hour, HOUR, DAY)
        && is_part(minute, MINUTE, HOUR)
        && (is_part(second, 1, MINUTE) || is_leap_second)
        && is_part(nanosecond, 1, NANOSECONDS)
}

/// The nanoseconds of a clock since its day began.
fn nanoseconds(fields: UtcFields) -> i128 {
    let UtcFields { hour, minute, second, nanosecond, .. } = fields;
    let seconds = hour as i128 * HOUR + minute as i128 * MINUTE + second as i128;
    seconds * NANOSECONDS + nanosecond as i128
}

/// Refused are in turn a bad list, a field that is not possible, a date that does not exist, and a time before 1972 or past 64 bits.
pub fn write(leap_seconds: &[u8], fields: UtcFields) -> Result<i64, Refusal> {
    let listed = LeapSeconds::listed(leap_seconds)?;
    let date = Date::new(fields.year, fields.month, fields.day);
    possible(date, has_possible_clock(&listed, date, fields))?;
    if date.day > last_day_of_month(CALENDAR, date) {
        return Err(lack(CALENDAR, date));
    }
    if date.year < 1972 {
        return Err(Refusal::Before1972);
    }
    let start = day_of_date(CALENDAR, date).and_then(|day| listed.start_of(day)).ok_or(Refusal::OutOfRange)?;
    i64::try_from(start as i128 + nanoseconds(fields)).map_err(|_| Refusal::OutOfRange)
}
