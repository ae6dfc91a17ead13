//! Faults in telling mistyped, missing and dropped dates apart. Every call that is given a date may have one: its name is the call's name
//! and one of those below.

use super::chosen;
use answers::*;
use second::boundary;
use second::calendar::{Calendar, calendar_named};
use second::codes::{calendar_of, date_of_numbers, fields_of_numbers};
use second::cutover::{Cutover, OF_1582};
use second::date_text::{WrittenDate, date};
use second::fields::{Fields as Local, UTC, Zone, tested_day};
use second::refusal::Refusal;
use second::units_text::meanings;
use second::ways::complete;

/// The number for a local time of a calendar, with the fault that is asked for. What is asked too late stays 4 where the rest is good.
fn told(call: &str, right: u32, calendar: Calendar, local: Local, zone: Zone) -> u32 {
    let Some(fault) = chosen().strip_prefix(call) else {
        return right;
    };
    let second::calendar::Date { year, month, day } = local.date;
    let of = |local, zone| tested_day(calendar, local, zone).map_or_else(Refusal::number, |_| 0);
    match (fault, right) {
        ("_12_as_4", 12) => 4,
        ("_year_0_as_4", 12) if year == 0 => 4,
        ("_30_february_as_4", 12) if (month, day) == (2, 30) => 4,
        ("_31_of_360_day_as_4", 12) if calendar == Calendar::Day360 => 4,
        ("_dropped_from_julian", 0) if calendar == Calendar::Julian && (year, month, day) == (1582, 10, 14) => 13,
        ("_month_13_as_12", 4) if month == 13 => 12,
        ("_day_32_as_12", 4) if day == 32 => 12,
        ("_year_0_before_4", 4) if year == 0 && matches!(calendar, Calendar::Standard(_) | Calendar::Julian) => 12,
        ("_clock_after_date", 4) => of(Local::midnight(local.date), zone).max(4),
        ("_zone_after_date", 4) => of(local, UTC).max(4),
        ("_microsecond_after_13", 4) if of(Local { microsecond: 0, ..local }, zone) == 13 => 13,
        ("_zone_minute_after_13", 4) if of(local, Zone { minutes: 0, ..zone }) == 13 => 13,
        ("_zone_as_12", 4) if of(local, UTC) == 0 => 12,
        ("_12_before_5", 5) if (month, day) == (2, 30) => 12,
        ("_5_before_12", 12) if (year, month, day) == (9999, 12, 31) => 5,
        ("_6_before_13", 13) if local.microsecond > 0 => 6,
        _ => match calendar {
            Calendar::Standard(cutover) => of_dropped(fault, right, cutover, local.date),
            _ => right,
        },
    }
}

/// The number for a date of `standard`, with a fault about those that it dropped.
fn of_dropped(fault: &str, right: u32, cutover: Cutover, date: second::calendar::Date) -> u32 {
    let is_first = cutover.dropped().next() == Some(date);
    let is_last = cutover.dropped().last() == Some(date);
    let to_the_cutover = || cutover.dropped().skip_while(|&dropped| dropped != date).count();
    match (fault, right) {
        ("_13_as_12", 13) => 12,
        ("_first_dropped_as_12", 13) if is_first => 12,
        ("_last_dropped_as_12", 13) if is_last => 12,
        ("_last_dropped_taken", 13) if is_last => 0,
        ("_last_day_kept_a_day_late", 13) if is_first => 0,
        ("_dropped_as_written", 12) if date > cutover.last_kept && date < cutover.first => 13,
        ("_ten_days_dropped", 13) if to_the_cutover() > 10 => 0,
        ("_dropped_days_of_1582", 0 | 13) if OF_1582.dropped().any(|of_1582| of_1582 == date) => 13,
        ("_dropped_days_of_1582", 13) => 0,
        _ => right,
    }
}

/// Whether a call has a fault.
fn has_fault(call: &str) -> bool {
    chosen().starts_with(call)
}

pub fn day_of_date(code: u32, cutover: Date, date: Date) -> DayAnswer {
    let right = boundary::day_number_of_date(code, cutover, date);
    let midnight = Local::midnight(second::calendar::Date::new(date.year, date.month, date.day));
    let number = |calendar| told("day_of_date", right.number, calendar, midnight, UTC);
    DayAnswer { number: calendar_of(code, cutover).map_or(right.number, number), ..right }
}

pub fn write_fields(axis: Axis, fields: Fields) -> OffsetAnswer {
    let right = boundary::write_fields(axis, fields);
    let number = |calendar| told("write_fields", right.number, calendar, fields_of_numbers(fields), UTC);
    OffsetAnswer { number: calendar_of(axis.calendar, axis.cutover).map_or(right.number, number), ..right }
}

/// The number for a written date in the calendar of a name.
fn in_text(call: &str, right: u32, name: &[u8], cutover: Date, written: Option<WrittenDate>) -> u32 {
    let calendar = calendar_named(name).and_then(|calendar| calendar.with_cutover(date_of_numbers(cutover)).ok());
    match (calendar, written) {
        (Some(calendar), Some(written)) => {
            let (local, zone) = written.fields();
            told(call, right, calendar, local, zone)
        }
        _ => right,
    }
}

pub fn read_iso(name: &[u8], cutover: Date, text: &[u8]) -> Reading {
    let right = boundary::read_iso(name, cutover, text);
    if !has_fault("read_iso") {
        return right;
    }
    Reading { number: in_text("read_iso", right.number, name, cutover, complete(date(text)).pop()), ..right }
}

pub fn read_units(name: &[u8], cutover: Date, text: &[u8]) -> AxisAnswer {
    in_units("read_units", boundary::read_units(name, cutover, text), name, cutover, text)
}

/// The answer to a units text, with the fault that is asked for.
pub fn in_units(call: &str, right: AxisAnswer, name: &[u8], cutover: Date, text: &[u8]) -> AxisAnswer {
    if !has_fault(call) {
        return right;
    }
    let written = meanings(text).pop().map(|units| units.date);
    AxisAnswer { number: in_text(call, right.number, name, cutover, written), ..right }
}
