//! One offset read on an axis (document 01, "Periods", "Numbers returned"; document 02, CR 7).

use crate::axis::{Axis, Mode, Period};
use crate::calendar_mode::{TimeReached, moved_by_months, moved_by_years};
use crate::dyadic::Dyadic;
use crate::instant::{fields_of, instant_of_count};
use crate::nearest::nearest_count;
use crate::refusal::Refusal;

#[derive(Clone, Copy, PartialEq, Eq, Debug)]
pub struct Reading {
    pub instant: i64,
    pub exact: bool,
    pub days_back: u32,
}

/// Every call on an axis asks first that its reference is in range.
pub fn tested(axis: Axis) -> Result<(), Refusal> {
    fields_of(axis.calendar, axis.reference).map(|_| ())
}

pub fn read_whole(axis: Axis, offset: i64) -> Result<Reading, Refusal> {
    tested(axis)?;
    let TimeReached { count, days_back } = match (axis.mode, axis.period) {
        (Mode::Calendar, Period::Month) => moved_by_months(axis, offset)?,
        (Mode::Calendar, Period::Year) => moved_by_years(axis, offset)?,
        _ => {
            let displacement = offset as i128 * axis.period.microseconds() as i128;
            TimeReached { count: axis.reference as i128 + displacement, days_back: 0 }
        }
    };
    Ok(Reading { instant: instant_of_count(axis.calendar, count)?, exact: true, days_back })
}

pub fn read_double(axis: Axis, offset: f64) -> Result<Reading, Refusal> {
    tested(axis)?;
    let value = Dyadic::of_double(offset).ok_or(Refusal::NotFinite)?;
    match axis.mode {
        Mode::Fixed => read_fraction(axis, &value),
        Mode::Calendar => read_whole(axis, whole_of(&value)?),
    }
}

fn read_fraction(axis: Axis, offset: &Dyadic) -> Result<Reading, Refusal> {
    let time = offset.scaled_and_moved(axis.period.microseconds(), axis.reference);
    let nearest = nearest_count(&time, axis.reference);
    let count = nearest.count.to_i128().ok_or(Refusal::OutOfRange)?;
    let instant = instant_of_count(axis.calendar, count)?;
    Ok(Reading { instant, exact: nearest.exact, days_back: 0 })
}

/// A fraction as a whole 64-bit offset.
fn whole_of(value: &Dyadic) -> Result<i64, Refusal> {
    let floor = value.floor();
    if !value.parts_above(&floor).is_zero() {
        return Err(Refusal::Inexact);
    }
    let wide = floor.to_i128().ok_or(Refusal::OutOfRange)?;
    i64::try_from(wide).map_err(|_| Refusal::OutOfRange)
}
