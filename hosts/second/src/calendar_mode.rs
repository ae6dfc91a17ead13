//! Calendar months and years: the month or the year of the reference is moved (document 01, "Periods"), and its day stepped back until it
//! exists (document 02, CR 7).

use crate::axis::Axis;
use crate::calendar::Date;
use crate::days::{day_of_date, month_after, year_after};
use crate::fields::{Fields, UTC};
use crate::instant::{count_of_fields, fields_of};
use crate::refusal::Refusal;

/// The count of microseconds that an offset leads to, and the days that the day of the month was stepped back.
pub struct TimeReached {
    pub count: i128,
    pub days_back: u32,
}

/// The reference with its month moved so many months, its day and time of day kept.
pub fn moved_by_months(axis: Axis, months: i64) -> Result<TimeReached, Refusal> {
    let fields = fields_of(axis.calendar, axis.reference)?;
    let Date { year, month, .. } = fields.date;
    let (year, month) = month_after(axis.calendar, year, month, months).ok_or(Refusal::OutOfRange)?;
    placed(axis, fields, year, month)
}

/// The reference with its year moved so many years, the rest of it kept.
pub fn moved_by_years(axis: Axis, years: i64) -> Result<TimeReached, Refusal> {
    let fields = fields_of(axis.calendar, axis.reference)?;
    let year = year_after(axis.calendar, fields.date.year, years).ok_or(Refusal::OutOfRange)?;
    placed(axis, fields, year, fields.date.month)
}

/// The fields in another month, on the last day there that is not after their own. Each step back is counted.
fn placed(axis: Axis, fields: Fields, year: i64, month: u32) -> Result<TimeReached, Refusal> {
    let mut date = Date::new(year, month, fields.date.day);
    let mut days_back = 0;
    while day_of_date(axis.calendar, date).is_none() {
        date.day -= 1;
        days_back += 1;
    }
    let count = count_of_fields(axis.calendar, Fields { date, ..fields }, UTC)?;
    Ok(TimeReached { count, days_back })
}
