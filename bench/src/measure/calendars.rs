//! Day numbers, dates and fields.

use super::{each_span, summed};
use crate::plain;
use crate::plain::cutover::Calendar;
use crate::timing::{compare, print_missing};
use answers::{Date, DateAnswer, DayAnswer, FieldsAnswer};
use samples::instants;
use uppinalo::{is_exported, raw};

type FieldsOf = unsafe extern "C" fn(u32, Date, i64) -> FieldsAnswer;
type DateOfDay = unsafe extern "C" fn(u32, Date, i64) -> DateAnswer;
type DayOfDate = unsafe extern "C" fn(u32, Date, Date) -> DayAnswer;

pub fn fields() {
    if !is_exported("fields_of") {
        return print_missing("fields of an instant");
    }
    each_span("fields of an instant", 1, |label, calendar, cutover, inputs| {
        let sum = |call: FieldsOf| {
            summed(&inputs, call, |call, instant| {
                let FieldsAnswer { number, fields } = unsafe { call(calendar, cutover, instant) };
                let clock = fields.hour ^ fields.minute ^ fields.second ^ fields.microsecond;
                fields.year as u64 ^ (number ^ fields.month ^ fields.day ^ clock) as u64
            })
        };
        compare(label, inputs.len(), || sum(raw::uppinalo_fields_of), || sum(plain::clock::fields_of));
    });
}

pub fn dates() {
    if !is_exported("date_of_day") {
        return print_missing("date of a day number");
    }
    each_span("date of a day number", 2, |label, calendar, cutover, inputs| {
        let days: Vec<i64> = inputs.iter().map(|instant| instant.div_euclid(instants::DAY)).collect();
        let sum = |call: DateOfDay| {
            summed(&days, call, |call, day| {
                let DateAnswer { number, date } = unsafe { call(calendar, cutover, day) };
                date.year as u64 ^ (number ^ date.month ^ date.day) as u64
            })
        };
        compare(label, days.len(), || sum(raw::uppinalo_date_of_day), || sum(plain::days::date_of_day));
    });
}

pub fn days() {
    if !is_exported("day_of_date") {
        return print_missing("day number of a date");
    }
    each_span("day number of a date", 3, |label, calendar, cutover, inputs| {
        let of = Calendar { code: calendar, cutover };
        let date = |instant: &i64| plain::clock::date_of(plain::clock::fields(of, *instant));
        let dates: Vec<Date> = inputs.iter().map(date).collect();
        let sum = |call: DayOfDate| {
            summed(&dates, call, |call, date| {
                let DayAnswer { number, day } = unsafe { call(calendar, cutover, date) };
                day as u64 ^ number as u64
            })
        };
        compare(label, dates.len(), || sum(raw::uppinalo_day_of_date), || sum(plain::days::day_of_date));
    });
}
