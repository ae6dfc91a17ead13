//! The calls of the archive with their codes and numbers, for slices in the place of pointers. Any code, number and slice may be
//! given: the archive refuses what it does not know, and an answer holds no type for which some bytes are not allowed.

use crate::raw;
use answers::*;

pub fn read_units(calendar: &[u8], cutover: Date, text: &[u8]) -> AxisAnswer {
    unsafe { raw::uppinalo_read_units(calendar.as_ptr(), calendar.len(), cutover, text.as_ptr(), text.len()) }
}

pub fn start_units() -> UnitsState {
    unsafe { raw::uppinalo_start_units() }
}

pub fn add_units(state: &mut UnitsState, fragment: &[u8]) -> u32 {
    unsafe { raw::uppinalo_add_units(state, fragment.as_ptr(), fragment.len()) }
}

pub fn end_units(state: &mut UnitsState, calendar: &[u8], cutover: Date) -> AxisAnswer {
    unsafe { raw::uppinalo_end_units(state, calendar.as_ptr(), calendar.len(), cutover) }
}

pub fn read_iso(calendar: &[u8], cutover: Date, text: &[u8]) -> Reading {
    unsafe { raw::uppinalo_read_iso(calendar.as_ptr(), calendar.len(), cutover, text.as_ptr(), text.len()) }
}

pub fn write_iso(calendar: u32, cutover: Date, instant: i64, room: &mut [u8]) -> LengthAnswer {
    unsafe { raw::uppinalo_write_iso(calendar, cutover, instant, room.as_mut_ptr(), room.len()) }
}

pub fn fields_of(calendar: u32, cutover: Date, instant: i64) -> FieldsAnswer {
    unsafe { raw::uppinalo_fields_of(calendar, cutover, instant) }
}

pub fn date_of_day(calendar: u32, cutover: Date, day: i64) -> DateAnswer {
    unsafe { raw::uppinalo_date_of_day(calendar, cutover, day) }
}

pub fn day_of_date(calendar: u32, cutover: Date, date: Date) -> DayAnswer {
    unsafe { raw::uppinalo_day_of_date(calendar, cutover, date) }
}

pub fn read_whole(axis: Axis, offset: i64) -> Reading {
    unsafe { raw::uppinalo_read_whole(axis, offset) }
}

pub fn read_double(axis: Axis, offset: f64) -> Reading {
    unsafe { raw::uppinalo_read_double(axis, offset) }
}

pub fn write_instant(axis: Axis, instant: i64) -> OffsetAnswer {
    unsafe { raw::uppinalo_write_instant(axis, instant) }
}

pub fn write_fields(axis: Axis, fields: Fields) -> OffsetAnswer {
    unsafe { raw::uppinalo_write_fields(axis, fields) }
}

pub fn read_wholes(axis: Axis, source: &[i64], destination: &mut [i64]) -> RunAnswer {
    let (from, n) = (source.as_ptr(), source.len());
    unsafe { raw::uppinalo_read_wholes(axis, from, n, destination.as_mut_ptr(), destination.len()) }
}

pub fn read_doubles(axis: Axis, source: &[f64], destination: &mut [i64]) -> RunAnswer {
    let (from, n) = (source.as_ptr(), source.len());
    unsafe { raw::uppinalo_read_doubles(axis, from, n, destination.as_mut_ptr(), destination.len()) }
}

pub fn read_datetime64(identifier: &[u8], records: &[u8], destination: &mut [i64]) -> RunAnswer {
    let (name, name_len) = (identifier.as_ptr(), identifier.len());
    let (to, room) = (destination.as_mut_ptr(), destination.len());
    unsafe { raw::uppinalo_read_datetime64(name, name_len, records.as_ptr(), records.len(), to, room) }
}

pub fn write_datetime64(identifier: &[u8], instants: &[i64], records: &mut [u8]) -> RunAnswer {
    let (name, name_len) = (identifier.as_ptr(), identifier.len());
    let (to, room) = (records.as_mut_ptr(), records.len());
    unsafe { raw::uppinalo_write_datetime64(name, name_len, instants.as_ptr(), instants.len(), to, room) }
}

pub fn read_tt2000(leap_seconds: &[u8], tt2000: i64) -> UtcFieldsAnswer {
    unsafe { raw::uppinalo_read_tt2000(leap_seconds.as_ptr(), leap_seconds.len(), tt2000) }
}

pub fn write_tt2000(leap_seconds: &[u8], fields: UtcFields) -> Tt2000Answer {
    unsafe { raw::uppinalo_write_tt2000(leap_seconds.as_ptr(), leap_seconds.len(), fields) }
}
