//! Faults in the cutover of `standard`. Every call that is given one, alone or in an axis, may have each of those in `told`: its name is the
//! call's name and one of those there.

use super::{DAY, chosen};
use answers::*;
use second::boundary;
use second::calendar::{Calendar, calendar_named};
use second::codes::{calendar_of, date_numbers, date_of_numbers};
use second::cutover::Cutover;
use second::next_day::day_after;

const CUTOVER_1923: Date = Date { year: 1923, month: 12, day: 31 };
const STANDARD: u32 = 0;
const MONTH: u32 = 6;

/// An answer by its number.
pub trait Answer: Default {
    fn number(&self) -> u32;
    fn refused(number: u32) -> Self;
}

macro_rules! answers {
    ($($kind:ty),*) => { $(impl Answer for $kind {
        fn number(&self) -> u32 {
            self.number
        }

        fn refused(number: u32) -> Self {
            Self { number, ..Default::default() }
        }
    })* };
}

answers!(AxisAnswer, Reading, OffsetAnswer, FieldsAnswer, DateAnswer, DayAnswer, LengthAnswer, RunAnswer);

fn is_allowed(cutover: Date) -> bool {
    Cutover::of_date(date_of_numbers(cutover)).is_ok()
}

/// The answer to a cutover that is given with a calendar, or with one that is not known, with the fault that is asked for. A call may be made
/// again with another cutover.
fn told<A: Answer>(call: &str, calendar: Option<u32>, cutover: Date, mut answer: impl FnMut(Date) -> A) -> A {
    let right = answer(cutover);
    let Some(fault) = chosen().strip_prefix(call) else {
        return right;
    };
    let (is_standard, is_bad) = (calendar == Some(STANDARD), !is_allowed(cutover));
    match (fault, right.number()) {
        ("_cutover_ignored", number) if is_standard && number != 16 => answer(CUTOVER_1582),
        ("_any_cutover_taken", 16) => answer(CUTOVER_1582),
        ("_two_months_taken", 16) if is_allowed(Date { day: 15, ..cutover }) => answer(Date { day: 15, ..cutover }),
        ("_after_1923_taken", 16) if cutover.year == 1924 => answer(CUTOVER_1923),
        ("_first_of_a_month_refused", _) if is_standard && cutover.day == 1 => A::refused(16),
        ("_last_cutover_refused", _) if is_standard && cutover == CUTOVER_1923 => A::refused(16),
        ("_16_in_other_calendars", 0) if !is_standard && is_bad => A::refused(16),
        ("_16_before_1", 1) if is_standard && is_bad => A::refused(16),
        ("_16_before_2", 2) if is_bad => A::refused(16),
        ("_16_before_3", 3) if is_standard && is_bad => A::refused(16),
        ("_16_before_11", 11) if is_standard && is_bad => A::refused(16),
        ("_3_before_16", 16) if answer(CUTOVER_1582).number() == 3 => A::refused(3),
        ("_5_before_16", 16) if answer(CUTOVER_1582).number() == 5 => A::refused(5),
        _ => right,
    }
}

pub fn of_code<A: Answer>(call: &str, code: u32, cutover: Date, answer: impl FnMut(Date) -> A) -> A {
    told(call, Some(code), cutover, answer)
}

pub fn of_name<A: Answer>(call: &str, name: &[u8], cutover: Date, answer: impl FnMut(Date) -> A) -> A {
    told(call, calendar_named(name).map(Calendar::code), cutover, answer)
}

/// Those, and month steps that do not look at the axis's cutover.
pub fn on_axis<A: Answer>(call: &str, axis: Axis, mut answer: impl FnMut(Axis) -> A) -> A {
    let is_step = axis.calendar == STANDARD && axis.mode == 1 && axis.period == MONTH;
    if is_step && is_allowed(axis.cutover) && chosen().strip_prefix(call) == Some("_cutover_ignored_in_months") {
        return answer(Axis { cutover: CUTOVER_1582, ..axis });
    }
    told(call, Some(axis.calendar), axis.cutover, |cutover| answer(Axis { cutover, ..axis }))
}

/// Those, and a cutover in the axis that is not the one it should have.
pub fn axis(call: &str, name: &[u8], given: Date, answer: impl FnMut(Date) -> AxisAnswer) -> AxisAnswer {
    let right = of_name(call, name, given, answer);
    let cutover = match (chosen().strip_prefix(call), right.number) {
        (Some("_default_kept"), 0) => CUTOVER_1582,
        (Some("_default_kept_in_other_calendars"), 0) if right.axis.calendar != STANDARD => CUTOVER_1582,
        (Some("_refused_with_zeros"), 1..) => Date::default(),
        (Some("_refused_with_the_cutover"), 1..) => given,
        (Some(_), 0) => given,
        _ => right.axis.cutover,
    };
    AxisAnswer { axis: Axis { cutover, ..right.axis }, ..right }
}

/// The date after the last day kept, where that is the one given.
fn a_day_late(calendar: u32, cutover: Date, date: Date) -> Option<Date> {
    match calendar_of(calendar, cutover) {
        Ok(Calendar::Standard(of)) if of.last_kept == date_of_numbers(date) => {
            Some(date_numbers(day_after(Calendar::Julian, of.last_kept)))
        }
        _ => None,
    }
}

pub fn date_of_day_last_day_kept_a_day_late(calendar: u32, cutover: Date, day: i64) -> DateAnswer {
    let right = boundary::date_of_day_number(calendar, cutover, day);
    DateAnswer { date: a_day_late(calendar, cutover, right.date).unwrap_or(right.date), ..right }
}

pub fn fields_of_last_day_kept_a_day_late(calendar: u32, cutover: Date, instant: i64) -> FieldsAnswer {
    let right = boundary::fields_of(calendar, cutover, instant);
    let date = boundary::date_of_day_number(calendar, cutover, instant.div_euclid(DAY)).date;
    match a_day_late(calendar, cutover, date) {
        Some(Date { year, month, day }) if right.number == 0 => {
            FieldsAnswer { fields: Fields { year, month, day, ..right.fields }, ..right }
        }
        _ => right,
    }
}
