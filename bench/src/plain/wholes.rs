//! Whole offsets read.

use super::cutover::Calendar;
use super::{civil, clock, days, period};
use answers::{Axis, Fields, Reading};

/// A calendar's years in a row, with no gap at year 0.
fn row(calendar: Calendar, year: i64) -> i64 {
    if days::lacks_year_0(calendar.code) { civil::counted(year) } else { year }
}

fn year_of_row(calendar: Calendar, row: i64) -> i64 {
    if days::lacks_year_0(calendar.code) { civil::year_of_count(row) } else { row }
}

/// Months since the month 1 of row 0.
pub fn month_count(calendar: Calendar, fields: Fields) -> i64 {
    row(calendar, fields.year) * 12 + fields.month as i64 - 1
}

/// The instant of some fields in another month, where its year is in range, and how many days back their day is there.
pub fn in_month(calendar: Calendar, fields: Fields, months: i64) -> Option<(i64, u32)> {
    let year = year_of_row(calendar, months.div_euclid(12));
    if !(-9999..=9999).contains(&year) {
        return None;
    }
    let month = months.rem_euclid(12) as u32 + 1;
    let day = days::day_at_most(calendar, year, month, fields.day);
    Some((clock::instant(calendar, Fields { year, month, day, ..fields }), fields.day - day))
}

/// An axis, and what of its reference every step needs.
#[derive(Clone, Copy)]
pub struct Start {
    pub axis: Axis,
    fields: Fields,
    months: i64,
}

impl Start {
    /// Of a good axis. Only calendar steps need the reference's fields.
    pub fn of(axis: Axis) -> Start {
        if !period::is_calendar_step(axis) {
            return Start { axis, fields: Fields::default(), months: 0 };
        }
        let calendar = period::calendar(axis);
        let fields = clock::fields(calendar, axis.reference);
        Start { axis, fields, months: month_count(calendar, fields) }
    }

    fn calendar_step(&self, offset: i64) -> Option<(i64, u32)> {
        let steps = if self.axis.period == period::YEAR { offset.checked_mul(12)? } else { offset };
        in_month(period::calendar(self.axis), self.fields, self.months.checked_add(steps)?)
    }

    /// The instant of an offset, where it is in range, and the days back.
    fn reached(&self, offset: i64) -> Option<(i64, u32)> {
        let axis = self.axis;
        if period::is_calendar_step(axis) {
            return self.calendar_step(offset);
        }
        let instant = offset.checked_mul(period::microseconds(axis.period))?.checked_add(axis.reference)?;
        clock::is_in_range(axis.calendar, instant).then_some((instant, 0))
    }

    pub fn read(&self, offset: i64) -> Reading {
        match self.reached(offset) {
            Some((instant, days_back)) => Reading { number: 0, instant, exact: 1, days_back },
            None => Reading { number: 5, ..Default::default() },
        }
    }
}

#[inline(never)]
pub extern "C" fn read_whole(axis: Axis, offset: i64) -> Reading {
    match period::refusal(axis) {
        0 => Start::of(axis).read(offset),
        number => Reading { number, ..Default::default() },
    }
}
