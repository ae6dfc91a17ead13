//! The declarations of `include/uppinalo.h`. Nothing checks them against the archive but the comparison tests.

use answers::*;

/// Declares each call that the archive exports; any other one ends the process.
macro_rules! calls {
    ($($name:tt $symbol:ident($($argument:ident: $kind:ty),*) -> $answer:ty;)*) => { $(
        #[cfg(exported = $name)]
        unsafe extern "C" { pub fn $symbol($($argument: $kind),*) -> $answer; }

        /// # Safety
        /// It ends the process.
        #[cfg(not(exported = $name))]
        pub unsafe extern "C" fn $symbol($(_: $kind),*) -> $answer {
            panic!("{} is not exported yet", $name)
        }
    )* };
}

calls! {
    "read_units" uppinalo_read_units(calendar: *const u8, calendar_len: usize, cutover: Date, text: *const u8, text_len: usize) -> AxisAnswer;
    "start_units" uppinalo_start_units() -> UnitsState;
    "add_units" uppinalo_add_units(state: *mut UnitsState, fragment: *const u8, fragment_len: usize) -> u32;
    "end_units" uppinalo_end_units(state: *mut UnitsState, calendar: *const u8, calendar_len: usize, cutover: Date) -> AxisAnswer;
    "read_iso" uppinalo_read_iso(calendar: *const u8, calendar_len: usize, cutover: Date, text: *const u8, text_len: usize) -> Reading;
    "write_iso" uppinalo_write_iso(calendar: u32, cutover: Date, instant: i64, room: *mut u8, room_len: usize) -> LengthAnswer;
    "fields_of" uppinalo_fields_of(calendar: u32, cutover: Date, instant: i64) -> FieldsAnswer;
    "date_of_day" uppinalo_date_of_day(calendar: u32, cutover: Date, day: i64) -> DateAnswer;
    "day_of_date" uppinalo_day_of_date(calendar: u32, cutover: Date, date: Date) -> DayAnswer;
    "read_whole" uppinalo_read_whole(axis: Axis, offset: i64) -> Reading;
    "read_double" uppinalo_read_double(axis: Axis, offset: f64) -> Reading;
    "write_instant" uppinalo_write_instant(axis: Axis, instant: i64) -> OffsetAnswer;
    "write_fields" uppinalo_write_fields(axis: Axis, fields: Fields) -> OffsetAnswer;
    "read_wholes" uppinalo_read_wholes(axis: Axis, source: *const i64, n: usize, destination: *mut i64, room: usize) -> RunAnswer;
    "read_doubles" uppinalo_read_doubles(axis: Axis, source: *const f64, n: usize, destination: *mut i64, room: usize) -> RunAnswer;
    "read_datetime64" uppinalo_read_datetime64(identifier: *const u8, identifier_len: usize, records: *const u8, records_len: usize,
        destination: *mut i64, room: usize) -> RunAnswer;
    "write_datetime64" uppinalo_write_datetime64(identifier: *const u8, identifier_len: usize, instants: *const i64, n: usize,
        records: *mut u8, records_room: usize) -> RunAnswer;
    "read_tt2000" uppinalo_read_tt2000(leap_seconds: *const u8, leap_seconds_len: usize, tt2000: i64) -> UtcFieldsAnswer;
    "write_tt2000" uppinalo_write_tt2000(leap_seconds: *const u8, leap_seconds_len: usize, fields: UtcFields) -> Tt2000Answer;
}
