//! ISO text written and read, and units text read.

use super::{each_span, summed};
use crate::plain;
use crate::timing::{compare, print_missing};
use answers::{AxisAnswer, CUTOVER_1582, Date, LengthAnswer, Reading};
use samples::cutovers::ENGLISH;
use uppinalo::{is_exported, raw};

type WriteIso = unsafe extern "C" fn(u32, Date, i64, *mut u8, usize) -> LengthAnswer;
type Read<T> = unsafe extern "C" fn(*const u8, usize, Date, *const u8, usize) -> T;

/// The room is not cleared between.
pub fn iso() {
    if !is_exported("write_iso") {
        return print_missing("ISO text written");
    }
    each_span("ISO text written", 6, |label, calendar, cutover, inputs| {
        let sum = |call: WriteIso| {
            let room = std::cell::Cell::new([0u8; 32]);
            summed(&inputs, call, |call, instant| {
                let answer = unsafe { call(calendar, cutover, instant, room.as_ptr().cast(), 32) };
                let word = |at: usize| u64::from_le_bytes(room.get()[at..at + 8].try_into().unwrap());
                answer.number as u64 ^ answer.length as u64 ^ word(0) ^ word(18)
            })
        };
        compare(label, inputs.len(), || sum(raw::uppinalo_write_iso), || sum(plain::iso::write_iso));
    });
}

pub const TEXTS: [(&str, &str); 8] = [
    ("standard", "days since 1850-01-01"),
    ("", "hours since 1900-01-01 00:00:0.0"),
    ("proleptic_gregorian", "seconds since 1970-01-01T00:00:00Z"),
    ("noleap", "days since 0001-01-01 00:00:00"),
    ("360_day", "calendar months since 1930-01-30"),
    ("gregorian", "minutes since 2000-1-1 12:30:15.25 +05:30"),
    ("julian", "calendar years since -4713-01-01 12:00 UTC"),
    ("365_day", "millisecs since 1970-01-01"),
];

/// Texts of an English diary: before its cutover, about it and after it.
const ENGLISH_TEXTS: [(&str, &str); 4] = [
    ("standard", "days since 1752-09-02"),
    ("", "hours since 1700-02-29 00:00:0.0"),
    ("gregorian", "calendar months since 1752-09-14 12:00 UTC"),
    ("standard", "minutes since 1800-1-1 12:30:15.25 +05:30"),
];

pub fn axis_sum(AxisAnswer { number, axis }: AxisAnswer) -> u64 {
    axis.reference as u64
        ^ axis.cutover.year as u64
        ^ (number ^ axis.calendar ^ axis.period << 8 ^ axis.mode << 16) as u64
}

pub fn units() {
    if !is_exported("read_units") {
        return print_missing("units text read");
    }
    let measure = |label: &str, cutover: Date, texts: &[(&str, &str)]| {
        let inputs = texts.repeat(4096 / texts.len());
        let sum = |call: Read<AxisAnswer>| {
            summed(&inputs, call, |call, (name, text)| {
                axis_sum(unsafe { call(name.as_ptr(), name.len(), cutover, text.as_ptr(), text.len()) })
            })
        };
        compare(label, inputs.len(), || sum(raw::uppinalo_read_units), || sum(plain::units::read_units));
    };
    measure("units text read, 8 texts in turn", CUTOVER_1582, &TEXTS);
    measure("units text read, English cutover, 4 texts in turn", ENGLISH, &ENGLISH_TEXTS);
}

/// The dates of the units texts.
pub fn iso_read() {
    if !is_exported("read_iso") {
        return print_missing("ISO text read");
    }
    let measure = |label: &str, cutover: Date, texts: &[(&'static str, &'static str)]| {
        let date = |&(name, text): &(&'static str, &'static str)| (name, text.split_once("since ").unwrap().1);
        let inputs = texts.iter().map(date).collect::<Vec<_>>().repeat(4096 / texts.len());
        let sum = |call: Read<Reading>| {
            summed(&inputs, call, |call, (name, text)| {
                let Reading { number, instant, exact, days_back } =
                    unsafe { call(name.as_ptr(), name.len(), cutover, text.as_ptr(), text.len()) };
                instant as u64 ^ number as u64 ^ exact as u64 ^ (days_back as u64) << 32
            })
        };
        compare(label, inputs.len(), || sum(raw::uppinalo_read_iso), || sum(plain::units::read_iso));
    };
    measure("ISO text read, 8 texts in turn", CUTOVER_1582, &TEXTS);
    measure("ISO text read, English cutover, 4 texts in turn", ENGLISH, &ENGLISH_TEXTS);
}
