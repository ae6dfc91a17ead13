//! Instants and their fields (document 01, "Instants and axes").

use crate::calendar::Calendar;
use crate::days::date_of_day;
use crate::fields::{DAY, Fields, HOUR, MINUTE, SECOND, Zone, tested_day};
use crate::refusal::Refusal;

/// The last day that does not begin after a count of microseconds.
fn day_of_count(count: i128) -> i128 {
    let mut day = count / DAY;
    while day * DAY > count {
        day -= 1;
    }
    day
}

/// The count as an instant, if its day is one of the calendar's listed days.
pub fn instant_of_count(calendar: Calendar, count: i128) -> Result<i64, Refusal> {
    match date_of_day(calendar, day_of_count(count)) {
        Some(_) => i64::try_from(count).map_err(|_| Refusal::OutOfRange),
        None => Err(Refusal::OutOfRange),
    }
}

/// How many whole units a rest of microseconds holds; they are taken from it.
fn taken(rest: &mut i128, unit: i128) -> u32 {
    let mut number = 0;
    while *rest >= unit {
        *rest -= unit;
        number += 1;
    }
    number
}

/// The fields of an instant; refused past the range.
pub fn fields_of(calendar: Calendar, instant: i64) -> Result<Fields, Refusal> {
    let day = day_of_count(instant as i128);
    let date = date_of_day(calendar, day).ok_or(Refusal::OutOfRange)?;
    let mut rest = instant as i128 - day * DAY;
    let hour = taken(&mut rest, HOUR);
    let minute = taken(&mut rest, MINUTE);
    let second = taken(&mut rest, SECOND);
    Ok(Fields { date, hour, minute, second, microsecond: rest as u32 })
}

/// The count of microseconds of a local time, from which its zone is taken off; refused where there is no such time.
pub fn count_of_fields(calendar: Calendar, local: Fields, zone: Zone) -> Result<i128, Refusal> {
    let day = tested_day(calendar, local, zone)?;
    let clock = local.hour as i128 * HOUR
        + local.minute as i128 * MINUTE
        + local.second as i128 * SECOND
        + local.microsecond as i128;
    let count = day as i128 * DAY + clock;
    let ahead = zone.hours as i128 * HOUR + zone.minutes as i128 * MINUTE;
    Ok(if zone.is_behind { count + ahead } else { count - ahead })
}
