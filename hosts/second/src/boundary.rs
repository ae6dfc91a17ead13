//! A counterpart for each call of the C boundary, with the same numbers in and out.
//! A code that is none of the listed ones is refused before anything else: a calendar's, then a period's or a mode's. Then a cutover is
//! refused that is not allowed.

use crate::codes::*;
use crate::days::date_of_day;
use crate::fields::{Fields, UTC, tested_day};
use crate::reading::Reading;
use crate::refusal::Refusal;
use crate::runs::Refused;
use crate::{datetime64, fragments, instant, iso, reading, runs, tt2000, units_text, writing};

pub fn read_units(calendar: &[u8], cutover: answers::Date, text: &[u8]) -> answers::AxisAnswer {
    axis_answer(units_text::read_units(calendar, date_of_numbers(cutover), text))
}

pub fn start_units() -> answers::UnitsState {
    fragments::start()
}

pub fn add_units(state: &mut answers::UnitsState, fragment: &[u8]) -> u32 {
    fragments::add(state, fragment).map_or_else(Refusal::number, |()| 0)
}

pub fn end_units(state: &mut answers::UnitsState, calendar: &[u8], cutover: answers::Date) -> answers::AxisAnswer {
    axis_answer(fragments::end(state, calendar, date_of_numbers(cutover)))
}

pub fn read_iso(calendar: &[u8], cutover: answers::Date, text: &[u8]) -> answers::Reading {
    let instant = iso::read_iso(calendar, date_of_numbers(cutover), text);
    reading_answer(instant.map(|instant| Reading { instant, exact: true, days_back: 0 }))
}

pub fn write_iso(calendar: u32, cutover: answers::Date, instant: i64, room: &mut [u8]) -> answers::LengthAnswer {
    match calendar_of(calendar, cutover).and_then(|calendar| iso::write_iso(calendar, instant, room)) {
        Ok(length) => answers::LengthAnswer { number: 0, length },
        Err(refusal) => answers::LengthAnswer { number: refusal.number(), ..Default::default() },
    }
}

pub fn fields_of(calendar: u32, cutover: answers::Date, instant: i64) -> answers::FieldsAnswer {
    match calendar_of(calendar, cutover).and_then(|calendar| instant::fields_of(calendar, instant)) {
        Ok(fields) => answers::FieldsAnswer { number: 0, fields: field_numbers(fields) },
        Err(refusal) => answers::FieldsAnswer { number: refusal.number(), ..Default::default() },
    }
}

pub fn date_of_day_number(calendar: u32, cutover: answers::Date, day: i64) -> answers::DateAnswer {
    let date = |calendar| date_of_day(calendar, day as i128).ok_or(Refusal::OutOfRange);
    match calendar_of(calendar, cutover).and_then(date) {
        Ok(date) => answers::DateAnswer { number: 0, date: date_numbers(date) },
        Err(refusal) => answers::DateAnswer { number: refusal.number(), ..Default::default() },
    }
}

pub fn day_number_of_date(calendar: u32, cutover: answers::Date, date: answers::Date) -> answers::DayAnswer {
    let midnight = Fields::midnight(date_of_numbers(date));
    match calendar_of(calendar, cutover).and_then(|calendar| tested_day(calendar, midnight, UTC)) {
        Ok(day) => answers::DayAnswer { number: 0, day },
        Err(refusal) => answers::DayAnswer { number: refusal.number(), ..Default::default() },
    }
}

pub fn read_whole(axis: answers::Axis, offset: i64) -> answers::Reading {
    reading_answer(axis_of(axis).and_then(|axis| reading::read_whole(axis, offset)))
}

pub fn read_double(axis: answers::Axis, offset: f64) -> answers::Reading {
    reading_answer(axis_of(axis).and_then(|axis| reading::read_double(axis, offset)))
}

pub fn write_instant(axis: answers::Axis, instant: i64) -> answers::OffsetAnswer {
    offset_answer(axis_of(axis).and_then(|axis| writing::write_instant(axis, instant)))
}

pub fn write_fields(axis: answers::Axis, fields: answers::Fields) -> answers::OffsetAnswer {
    offset_answer(axis_of(axis).and_then(|axis| writing::write_fields(axis, fields_of_numbers(fields))))
}

pub fn read_wholes(axis: answers::Axis, source: &[i64], destination: &mut [i64]) -> answers::RunAnswer {
    let axis = axis_of(axis).map_err(|refusal| Refused { refusal, place: 0 });
    run_answer(axis.and_then(|axis| runs::read_wholes(axis, source, destination)))
}

pub fn read_doubles(axis: answers::Axis, source: &[f64], destination: &mut [i64]) -> answers::RunAnswer {
    let axis = axis_of(axis).map_err(|refusal| Refused { refusal, place: 0 });
    run_answer(axis.and_then(|axis| runs::read_doubles(axis, source, destination)))
}

pub fn read_datetime64(identifier: &[u8], records: &[u8], destination: &mut [i64]) -> answers::RunAnswer {
    run_answer(datetime64::read(identifier, records, destination))
}

pub fn write_datetime64(identifier: &[u8], instants: &[i64], records: &mut [u8]) -> answers::RunAnswer {
    run_answer(datetime64::write(identifier, instants, records))
}

pub fn read_tt2000(leap_seconds: &[u8], number: i64) -> answers::UtcFieldsAnswer {
    match tt2000::read(leap_seconds, number) {
        Ok(fields) => answers::UtcFieldsAnswer { number: 0, fields },
        Err(refusal) => answers::UtcFieldsAnswer { number: refusal.number(), ..Default::default() },
    }
}

pub fn write_tt2000(leap_seconds: &[u8], fields: answers::UtcFields) -> answers::Tt2000Answer {
    match tt2000::write(leap_seconds, fields) {
        Ok(tt2000) => answers::Tt2000Answer { number: 0, tt2000 },
        Err(refusal) => answers::Tt2000Answer { number: refusal.number(), ..Default::default() },
    }
}
