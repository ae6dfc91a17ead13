//! datetime64 arrays read to instants of `proleptic_gregorian` and written from them, all or nothing (document 02, CR 1).
//! Years and months are moved from 1970-01-01 by calendar mode's steps; a count of microseconds is found in the decimal digits of
//! a number of a shorter unit; the number to be written is sought among all 64-bit numbers but not-a-time.

use crate::axis::{Axis, Mode, Period};
use crate::calendar::Calendar;
use crate::calendar_mode::{moved_by_months, moved_by_years};
use crate::cutover::OF_1582;
use crate::datetime64_type::{Datetime64Type, Unit, type_named};
use crate::instant::{fields_of, instant_of_count};
use crate::refusal::Refusal;
use crate::runs::{Counts, Refused};
use crate::writing::least_not_before;

const NOT_A_TIME: i64 = i64::MIN;
const CALENDAR: Calendar = Calendar::ProlepticGregorian;
const RECORD: usize = 8;

/// The count of microseconds whose decimal digits are a number's without the last so many, which must be zeros.
fn without_decimals(number: i64, decimals: u32) -> Result<i128, Refusal> {
    let digits = format!("{:020}", number.unsigned_abs());
    let (whole, rest) = digits.split_at(digits.len() - decimals as usize);
    if rest.bytes().any(|digit| digit != b'0') {
        return Err(Refusal::Inexact);
    }
    let size: i128 = whole.parse().expect("digits");
    Ok(if number < 0 { -size } else { size })
}

pub fn read_number(unit: Unit, number: i64) -> Result<i64, Refusal> {
    if number == NOT_A_TIME {
        return Err(Refusal::NotATime);
    }
    let mode = Mode::Calendar;
    let from_1970 = |period| Axis { calendar: CALENDAR, period, mode, reference: 0, cutover: OF_1582.first };
    let count = match unit {
        Unit::Year => moved_by_years(from_1970(Period::Year), number)?.count,
        Unit::Month => moved_by_months(from_1970(Period::Month), number)?.count,
        Unit::Fixed(length) => number as i128 * length as i128,
        Unit::Decimals(decimals) => without_decimals(number, decimals)?,
    };
    instant_of_count(CALENDAR, count)
}

/// Whether the time of a number lies before an instant. One that is out of range lies past the end to which it points.
fn is_before(unit: Unit, number: i64, instant: i64) -> bool {
    match unit {
        Unit::Decimals(decimals) => (number as i128) < instant as i128 * 10i128.pow(decimals),
        _ => read_number(unit, number).map_or(number < 0, |read| read < instant),
    }
}

pub fn write_instant(unit: Unit, instant: i64) -> Result<i64, Refusal> {
    fields_of(CALENDAR, instant)?;
    let number = least_not_before(NOT_A_TIME + 1, |number| is_before(unit, number, instant));
    if read_number(unit, number) == Ok(instant) { Ok(number) } else { Err(Refusal::Inexact) }
}

fn as_a_whole(refusal: Refusal) -> Refused {
    Refused { refusal, place: 0 }
}

/// All the results, or the first refusal and its place.
fn every<T>(results: impl Iterator<Item = Result<T, Refusal>>) -> Result<Vec<T>, Refused> {
    results.enumerate().map(|(place, result)| result.map_err(|refusal| Refused { refusal, place })).collect()
}

pub fn read(identifier: &[u8], records: &[u8], destination: &mut [i64]) -> Result<Counts, Refused> {
    let Datetime64Type { order, unit } = type_named(identifier).map_err(as_a_whole)?;
    if !records.len().is_multiple_of(RECORD) {
        return Err(as_a_whole(Refusal::PartRecord));
    }
    let length = records.len() / RECORD;
    if destination.len() < length {
        return Err(as_a_whole(Refusal::NoRoom));
    }
    let instants = every(records.chunks(RECORD).map(|record| read_number(unit, order.number(record))))?;
    destination[..length].copy_from_slice(&instants);
    Ok(Counts { length, rounded: 0 })
}

pub fn write(identifier: &[u8], instants: &[i64], records: &mut [u8]) -> Result<Counts, Refused> {
    let Datetime64Type { order, unit } = type_named(identifier).map_err(as_a_whole)?;
    if (records.len() as u128) < RECORD as u128 * instants.len() as u128 {
        return Err(as_a_whole(Refusal::NoRoom));
    }
    let numbers = every(instants.iter().map(|&instant| write_instant(unit, instant)))?;
    let written: Vec<u8> = numbers.into_iter().flat_map(|number| order.record(number)).collect();
    records[..written.len()].copy_from_slice(&written);
    Ok(Counts { length: instants.len(), rounded: 0 })
}
