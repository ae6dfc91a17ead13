//! Faults in the days that the day of the month was stepped back. A call that reads an offset may have each of those in `counted` and
//! `beside_refusal`: its name is the call's name, `_days_back` and one of those there.

use super::chosen;
use answers::{Axis, Date, Reading};
use second::boundary;
use second::calendar::calendar_named;

const JULIAN: u32 = 2;
const DAYS_360: u32 = 5;
const MONTH: u32 = 6;
const YEAR: u32 = 7;

pub fn read_whole(axis: Axis, offset: i64) -> Reading {
    with_fault("read_whole_days_back", axis, boundary::read_whole(axis, offset))
}

pub fn read_double(axis: Axis, offset: f64) -> Reading {
    with_fault("read_double_days_back", axis, boundary::read_double(axis, offset))
}

fn with_fault(call: &str, axis: Axis, right: Reading) -> Reading {
    match chosen().strip_prefix(call) {
        Some(fault) if right.number == 0 => Reading { days_back: counted(fault, axis, right), ..right },
        Some(fault) => Reading { days_back: beside_refusal(fault, axis, right.number), ..right },
        None => right,
    }
}

fn is_calendar_step(axis: Axis) -> bool {
    axis.mode == 1 && axis.period >= MONTH
}

/// The days of an offset that is read.
fn counted(fault: &str, axis: Axis, right: Reading) -> u32 {
    let Reading { instant, days_back, .. } = right;
    let fields = |instant| boundary::fields_of(axis.calendar, axis.cutover, instant).fields;
    let [asked, given] = [axis.reference, instant].map(fields);
    let is_cutover = days_back > 3;
    let is_october_1582 = (given.year, given.month) == (1582, 10);
    let is_step_in = |calendar| axis.calendar == calendar && is_calendar_step(axis);
    match fault {
        "_in_fixed_mode" if axis.mode == 0 => asked.day.saturating_sub(given.day),
        "_in_shorter_periods" if axis.mode == 1 && axis.period < MONTH => asked.day.saturating_sub(given.day),
        "_of_dropped_days_in_julian" if is_step_in(JULIAN) && is_october_1582 && (5..15).contains(&asked.day) => {
            asked.day - 4
        }
        "_to_28_february_in_360_day" if is_step_in(DAYS_360) && given.month == 2 => asked.day.saturating_sub(28),
        _ if days_back == 0 => 0,
        "_never_counted" => 0,
        "_one_too_many" => days_back + 1,
        "_one_too_few" => days_back - 1,
        "_as_asked_day" => asked.day,
        "_as_given_day" => given.day,
        "_at_most_3" => days_back.min(3),
        "_at_most_9" => days_back.min(9),
        "_at_most_10" => days_back.min(10),
        "_at_most_13" => days_back.min(13),
        "_to_28_february" if given.month == 2 => asked.day - 28,
        "_of_years_lost" if axis.period == YEAR => 0,
        "_of_dropped_days_lost" if is_cutover => 0,
        "_of_steps_to_the_past_lost" if instant < axis.reference => 0,
        "_before_year_1_lost" if given.year < 1 => 0,
        "_in_year_9999_lost" if given.year == 9999 => 0,
        _ => days_back,
    }
}

/// The days beside a refusal.
fn beside_refusal(fault: &str, axis: Axis, number: u32) -> u32 {
    let asked = boundary::fields_of(axis.calendar, axis.cutover, axis.reference).fields.day;
    match (fault, number) {
        ("_beside_5", 5) if is_calendar_step(axis) => asked.saturating_sub(28),
        ("_beside_6", 6) if is_calendar_step(axis) => asked.saturating_sub(28),
        _ => 0,
    }
}

/// An ISO text's reading in the calendar of a name, with days up to 31 counted, or some of a date that is missing.
pub fn of_text(name: &[u8], cutover: Date, right: Reading) -> Reading {
    let day = |calendar| boundary::fields_of(calendar, cutover, right.instant).fields.day;
    match (chosen(), right.number, calendar_named(name)) {
        ("read_iso_days_back_counted", 0, Some(calendar)) => {
            let given = day(calendar.code());
            Reading { days_back: if given < 28 { 0 } else { 31 - given }, ..right }
        }
        ("read_iso_days_back_beside_12", 12, _) => Reading { days_back: 1, ..right },
        _ => right,
    }
}
