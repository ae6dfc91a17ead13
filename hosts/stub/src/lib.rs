//! The second program behind the C boundary: it stands in for the archive, to try the tests and the benchmark themselves.
//! A fault may be asked for, to see that the comparison tests find it (`faults`).

mod faults;

use answers::*;
use second::boundary;
use std::slice;

/// What a pointer and a length lend; the pointer of an empty run may be null.
unsafe fn lent<'a, T>(start: *const T, length: usize) -> &'a [T] {
    if length == 0 { &[] } else { unsafe { slice::from_raw_parts(start, length) } }
}

unsafe fn lent_mut<'a, T>(start: *mut T, length: usize) -> &'a mut [T] {
    if length == 0 { &mut [] } else { unsafe { slice::from_raw_parts_mut(start, length) } }
}

#[unsafe(no_mangle)]
unsafe extern "C" fn uppinalo_read_units(
    name: *const u8,
    name_len: usize,
    cutover: Date,
    text: *const u8,
    text_len: usize,
) -> AxisAnswer {
    let (name, text) = unsafe { (lent(name, name_len), lent(text, text_len)) };
    if faults::is_on("read_units_with_space") {
        return faults::read_units_with_space(name, cutover, text);
    }
    faults::cutover::axis("read_units", name, cutover, |cutover| faults::dates::read_units(name, cutover, text))
}

#[unsafe(no_mangle)]
extern "C" fn uppinalo_start_units() -> UnitsState {
    faults::fragments::start()
}

#[unsafe(no_mangle)]
unsafe extern "C" fn uppinalo_add_units(state: *mut UnitsState, fragment: *const u8, fragment_len: usize) -> u32 {
    if faults::is_on("add_units_past_the_state") && fragment_len > 128 {
        unsafe { state.add(1).cast::<u8>().write(0) };
    }
    unsafe { faults::fragments::add(&mut *state, lent(fragment, fragment_len)) }
}

#[unsafe(no_mangle)]
unsafe extern "C" fn uppinalo_end_units(
    state: *mut UnitsState,
    name: *const u8,
    name_len: usize,
    cutover: Date,
) -> AxisAnswer {
    let (state, name) = unsafe { (&mut *state, lent(name, name_len)) };
    let before = *state;
    faults::cutover::axis("end_units", name, cutover, |cutover| {
        *state = before;
        faults::fragments::end(state, name, cutover)
    })
}

#[unsafe(no_mangle)]
unsafe extern "C" fn uppinalo_read_iso(
    name: *const u8,
    name_len: usize,
    cutover: Date,
    text: *const u8,
    text_len: usize,
) -> Reading {
    let (name, text) = unsafe { (lent(name, name_len), lent(text, text_len)) };
    if faults::is_on("read_iso_lower_case") {
        return faults::read_iso_lower_case(name, cutover, text);
    }
    faults::cutover::of_name("read_iso", name, cutover, |cutover| {
        faults::days_back::of_text(name, cutover, faults::dates::read_iso(name, cutover, text))
    })
}

#[unsafe(no_mangle)]
unsafe extern "C" fn uppinalo_write_iso(
    calendar: u32,
    cutover: Date,
    instant: i64,
    room: *mut u8,
    room_len: usize,
) -> LengthAnswer {
    let room = unsafe { lent_mut(room, room_len) };
    if faults::is_on("write_iso_and_clear") {
        return faults::write_iso_and_clear(calendar, cutover, instant, room);
    }
    faults::cutover::of_code("write_iso", calendar, cutover, |cutover| {
        boundary::write_iso(calendar, cutover, instant, room)
    })
}

#[unsafe(no_mangle)]
extern "C" fn uppinalo_fields_of(calendar: u32, cutover: Date, instant: i64) -> FieldsAnswer {
    if faults::is_on("fields_of_toward_zero") {
        return faults::fields_of_toward_zero(calendar, cutover, instant);
    }
    if faults::is_on("fields_of_last_day_kept_a_day_late") {
        return faults::cutover::fields_of_last_day_kept_a_day_late(calendar, cutover, instant);
    }
    faults::cutover::of_code("fields_of", calendar, cutover, |cutover| boundary::fields_of(calendar, cutover, instant))
}

#[unsafe(no_mangle)]
extern "C" fn uppinalo_date_of_day(calendar: u32, cutover: Date, day: i64) -> DateAnswer {
    if faults::is_on("date_of_day_with_year_0") {
        return faults::date_of_day_with_year_0(0, calendar, cutover, day);
    }
    if faults::is_on("date_of_day_julian_with_year_0") {
        return faults::date_of_day_with_year_0(2, calendar, cutover, day);
    }
    if faults::is_on("date_of_day_last_day_kept_a_day_late") {
        return faults::cutover::date_of_day_last_day_kept_a_day_late(calendar, cutover, day);
    }
    faults::cutover::of_code("date_of_day", calendar, cutover, |cutover| {
        boundary::date_of_day_number(calendar, cutover, day)
    })
}

#[unsafe(no_mangle)]
extern "C" fn uppinalo_day_of_date(calendar: u32, cutover: Date, date: Date) -> DayAnswer {
    if faults::is_on("day_of_date_in_the_gap") {
        return faults::day_of_date_in_the_gap(calendar, cutover, date);
    }
    if faults::is_on("day_of_date_julian_year_0_taken") {
        return faults::day_of_date_julian_year_0_taken(calendar, cutover, date);
    }
    faults::cutover::of_code("day_of_date", calendar, cutover, |cutover| {
        faults::dates::day_of_date(calendar, cutover, date)
    })
}

#[unsafe(no_mangle)]
extern "C" fn uppinalo_read_whole(axis: Axis, offset: i64) -> Reading {
    if faults::is_on("read_whole_wrapping") {
        return faults::read_whole_wrapping(axis, offset);
    }
    if faults::is_on("read_whole_julian_year_0_counted") {
        return faults::read_whole_julian_year_0_counted(axis, offset);
    }
    faults::cutover::on_axis("read_whole", axis, |axis| faults::days_back::read_whole(axis, offset))
}

#[unsafe(no_mangle)]
extern "C" fn uppinalo_read_double(axis: Axis, offset: f64) -> Reading {
    if faults::is_on("read_double_by_the_machine") {
        return faults::read_double_by_the_machine(axis, offset);
    }
    faults::cutover::on_axis("read_double", axis, |axis| faults::days_back::read_double(axis, offset))
}

#[unsafe(no_mangle)]
extern "C" fn uppinalo_write_instant(axis: Axis, instant: i64) -> OffsetAnswer {
    if faults::is_on("write_instant_not_exact") {
        return faults::write_instant_not_exact(axis, instant);
    }
    faults::cutover::on_axis("write_instant", axis, |axis| boundary::write_instant(axis, instant))
}

#[unsafe(no_mangle)]
extern "C" fn uppinalo_write_fields(axis: Axis, fields: Fields) -> OffsetAnswer {
    if faults::is_on("write_fields_4_before_5") {
        return faults::write_fields_4_before_5(axis, fields);
    }
    faults::cutover::on_axis("write_fields", axis, |axis| faults::dates::write_fields(axis, fields))
}

#[unsafe(no_mangle)]
unsafe extern "C" fn uppinalo_read_wholes(
    axis: Axis,
    source: *const i64,
    n: usize,
    destination: *mut i64,
    room: usize,
) -> RunAnswer {
    let (source, destination) = unsafe { (lent(source, n), lent_mut(destination, room)) };
    if faults::is_on("read_wholes_up_to_refusal") {
        return faults::read_wholes_up_to_refusal(axis, source, destination);
    }
    faults::cutover::on_axis("read_wholes", axis, |axis| boundary::read_wholes(axis, source, destination))
}

#[unsafe(no_mangle)]
unsafe extern "C" fn uppinalo_read_doubles(
    axis: Axis,
    source: *const f64,
    n: usize,
    destination: *mut i64,
    room: usize,
) -> RunAnswer {
    if faults::is_on("read_doubles_past_the_end") && n > 0 && room == n {
        unsafe { destination.add(n).write(0) };
    }
    let (source, destination) = unsafe { (lent(source, n), lent_mut(destination, room)) };
    faults::cutover::on_axis("read_doubles", axis, |axis| boundary::read_doubles(axis, source, destination))
}

#[unsafe(no_mangle)]
unsafe extern "C" fn uppinalo_read_datetime64(
    identifier: *const u8,
    identifier_len: usize,
    records: *const u8,
    records_len: usize,
    destination: *mut i64,
    room: usize,
) -> RunAnswer {
    let (identifier, records) = unsafe { (lent(identifier, identifier_len), lent(records, records_len)) };
    faults::datetime64::read(identifier, records, unsafe { lent_mut(destination, room) })
}

#[unsafe(no_mangle)]
unsafe extern "C" fn uppinalo_write_datetime64(
    identifier: *const u8,
    identifier_len: usize,
    instants: *const i64,
    n: usize,
    records: *mut u8,
    records_room: usize,
) -> RunAnswer {
    let (identifier, instants) = unsafe { (lent(identifier, identifier_len), lent(instants, n)) };
    faults::datetime64::write(identifier, instants, unsafe { lent_mut(records, records_room) })
}

#[unsafe(no_mangle)]
unsafe extern "C" fn uppinalo_read_tt2000(list: *const u8, list_len: usize, tt2000: i64) -> UtcFieldsAnswer {
    if faults::is_on("read_tt2000_list_changed") && list_len > 0 {
        unsafe { list.cast_mut().write(0) };
    }
    faults::tt2000::read(unsafe { lent(list, list_len) }, tt2000)
}

#[unsafe(no_mangle)]
unsafe extern "C" fn uppinalo_write_tt2000(list: *const u8, list_len: usize, fields: UtcFields) -> Tt2000Answer {
    if faults::is_on("write_tt2000_list_changed") && list_len > 0 {
        unsafe { list.cast_mut().write(0) };
    }
    faults::tt2000::write(unsafe { lent(list, list_len) }, fields)
}
