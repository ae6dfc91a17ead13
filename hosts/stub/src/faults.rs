//! Faults that the comparison tests must find, one at a time: UPPINALO_FAULT names it, and the call with the fault has the name's start.

pub mod cutover;
pub mod dates;
pub mod datetime64;
pub mod days_back;
pub mod fragments;
pub mod tt2000;

use answers::*;
use second::boundary;
use std::sync::OnceLock;

const DAY: i64 = 86_400_000_000;

/// The fault that is asked for, or nothing.
fn chosen() -> &'static str {
    static CHOSEN: OnceLock<String> = OnceLock::new();
    CHOSEN.get_or_init(|| std::env::var("UPPINALO_FAULT").unwrap_or_default())
}

/// Whether a fault is asked for.
pub fn is_on(fault: &str) -> bool {
    chosen() == fault
}

/// The days of negative instants are found by division toward zero.
pub fn fields_of_toward_zero(calendar: u32, cutover: Date, instant: i64) -> FieldsAnswer {
    let is_late = instant < 0 && instant % DAY != 0;
    boundary::fields_of(calendar, cutover, if is_late { instant + DAY } else { instant })
}

/// The double is multiplied and rounded by the machine, twice.
pub fn read_double_by_the_machine(axis: Axis, x: f64) -> Reading {
    let right = boundary::read_double(axis, x);
    if right.number != 0 || axis.mode == 1 {
        return right;
    }
    let period = second::axis::PERIODS[axis.period as usize].microseconds();
    Reading { instant: axis.reference.wrapping_add((x * period as f64).round_ties_even() as i64), ..right }
}

/// The product of offset and period wraps.
pub fn read_whole_wrapping(axis: Axis, offset: i64) -> Reading {
    if axis.mode == 1 || boundary::read_whole(axis, 0).number != 0 {
        return boundary::read_whole(axis, offset);
    }
    let period = second::axis::PERIODS[axis.period as usize].microseconds();
    let instant = axis.reference.wrapping_add(offset.wrapping_mul(period));
    match boundary::fields_of(axis.calendar, axis.cutover, instant).number {
        0 => Reading { instant, exact: 1, ..Default::default() },
        number => Reading { number, ..Default::default() },
    }
}

/// The offsets before a refused one are written.
pub fn read_wholes_up_to_refusal(axis: Axis, source: &[i64], destination: &mut [i64]) -> RunAnswer {
    let answer = boundary::read_wholes(axis, source, destination);
    if answer.number == 5 {
        boundary::read_wholes(axis, &source[..answer.place], destination);
    }
    answer
}

/// The bytes beyond the text are cleared.
pub fn write_iso_and_clear(calendar: u32, cutover: Date, instant: i64, room: &mut [u8]) -> LengthAnswer {
    let answer = boundary::write_iso(calendar, cutover, instant, room);
    if answer.number == 0 {
        room[answer.length..].fill(0);
    }
    answer
}

/// A microsecond too many is not noticed where the offset is negative.
pub fn write_instant_not_exact(axis: Axis, instant: i64) -> OffsetAnswer {
    let answer = boundary::write_instant(axis, instant);
    if answer.number == 6 && instant < axis.reference { boundary::write_instant(axis, instant - 1) } else { answer }
}

/// `t` stands for `T`.
pub fn read_iso_lower_case(name: &[u8], cutover: Date, text: &[u8]) -> Reading {
    let text: Vec<u8> = text.iter().map(|&byte| if byte == b't' { b'T' } else { byte }).collect();
    boundary::read_iso(name, cutover, &text)
}

/// A space at the end is let through.
pub fn read_units_with_space(name: &[u8], cutover: Date, text: &[u8]) -> AxisAnswer {
    boundary::read_units(name, cutover, text.strip_suffix(b" ").unwrap_or(text))
}

/// One calendar is shown with a year 0, which it lacks.
pub fn date_of_day_with_year_0(of: u32, calendar: u32, cutover: Date, day: i64) -> DateAnswer {
    let mut answer = boundary::date_of_day_number(calendar, cutover, day);
    if calendar == of && answer.date.year < 0 {
        answer.date.year += 1;
    }
    answer
}

/// 0000 of `julian` counts as the year -1.
pub fn day_of_date_julian_year_0_taken(calendar: u32, cutover: Date, date: Date) -> DayAnswer {
    let is_year_0 = calendar == 2 && date.year == 0;
    boundary::day_number_of_date(calendar, cutover, if is_year_0 { Date { year: -1, ..date } } else { date })
}

/// Steps back by years over the start of year 1 count a year 0 in `julian`.
pub fn read_whole_julian_year_0_counted(axis: Axis, offset: i64) -> Reading {
    let right = boundary::read_whole(axis, offset);
    let year = |instant| boundary::fields_of(axis.calendar, axis.cutover, instant).fields.year;
    let is_over_year_0 = right.number == 0 && year(axis.reference) > 0 && year(right.instant) < 0;
    if (axis.calendar, axis.period, axis.mode) == (2, 7, 1) && is_over_year_0 {
        return boundary::read_whole(axis, offset + 1);
    }
    right
}

/// The dropped days count as that of the cutover.
pub fn day_of_date_in_the_gap(calendar: u32, cutover: Date, date: Date) -> DayAnswer {
    let answer = boundary::day_number_of_date(calendar, cutover, date);
    if answer.number == 13 { boundary::day_number_of_date(0, cutover, cutover) } else { answer }
}

/// A month that no date has is refused before a year past the range.
pub fn write_fields_4_before_5(axis: Axis, fields: Fields) -> OffsetAnswer {
    let answer = boundary::write_fields(axis, fields);
    if answer.number == 5 && fields.month > 12 { OffsetAnswer { number: 4, offset: 0 } } else { answer }
}
