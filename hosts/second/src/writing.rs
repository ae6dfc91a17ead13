//! Whole offsets written: the one that reads as an instant is sought among all 64-bit offsets.
//! Later offsets read as later instants, so the offsets are halved until one is left.

use crate::axis::Axis;
use crate::fields::{Fields, UTC};
use crate::instant::{count_of_fields, fields_of, instant_of_count};
use crate::reading::{read_whole, tested};
use crate::refusal::Refusal;

/// Whether an offset reads as an instant before another. One that is refused lies past the end to which it points.
fn reads_before(axis: Axis, offset: i64, instant: i64) -> bool {
    match read_whole(axis, offset) {
        Ok(reading) => reading.instant < instant,
        Err(_) => offset < 0,
    }
}

/// The least number from one on that a test does not say lies before, or the greatest number of all: those that lie before come first.
pub fn least_not_before(from: i64, is_before: impl Fn(i64) -> bool) -> i64 {
    let (mut low, mut high) = (from as i128, i64::MAX as i128);
    while low < high {
        let middle = (low + high).div_euclid(2);
        if is_before(middle as i64) {
            low = middle + 1;
        } else {
            high = middle;
        }
    }
    low as i64
}

pub fn write_instant(axis: Axis, instant: i64) -> Result<i64, Refusal> {
    tested(axis)?;
    fields_of(axis.calendar, instant)?;
    let offset = least_not_before(i64::MIN, |offset| reads_before(axis, offset, instant));
    match read_whole(axis, offset) {
        Ok(reading) if reading.instant == instant => Ok(offset),
        _ => Err(Refusal::Inexact),
    }
}

pub fn write_fields(axis: Axis, fields: Fields) -> Result<i64, Refusal> {
    tested(axis)?;
    let count = count_of_fields(axis.calendar, fields, UTC)?;
    write_instant(axis, instant_of_count(axis.calendar, count)?)
}
