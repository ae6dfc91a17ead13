//! The structs of `include/uppinalo.h`, field for field, for all Rust programs here.

use std::fmt::{Display, Formatter, Result};

#[repr(C)]
#[derive(Clone, Copy, PartialEq, Eq, Hash, Debug, Default)]
pub struct Date {
    pub year: i64,
    pub month: u32,
    pub day: u32,
}

pub const CUTOVER_1582: Date = Date { year: 1582, month: 10, day: 15 };

#[repr(C)]
#[derive(Clone, Copy, PartialEq, Eq, Debug)]
pub struct Axis {
    pub calendar: u32,
    pub period: u32,
    pub mode: u32,
    pub reference: i64,
    pub cutover: Date,
}

/// The zero axis, which is that of a refusal.
impl Default for Axis {
    fn default() -> Axis {
        Axis { calendar: 0, period: 0, mode: 0, reference: 0, cutover: CUTOVER_1582 }
    }
}

#[repr(C)]
#[derive(Clone, Copy, PartialEq, Eq, Debug, Default)]
pub struct Fields {
    pub year: i64,
    pub month: u32,
    pub day: u32,
    pub hour: u32,
    pub minute: u32,
    pub second: u32,
    pub microsecond: u32,
}

#[repr(C)]
#[derive(Clone, Copy, PartialEq, Eq, Debug, Default)]
pub struct UtcFields {
    pub year: i64,
    pub month: u32,
    pub day: u32,
    pub hour: u32,
    pub minute: u32,
    pub second: u32,
    pub nanosecond: u32,
}

/// The ISO text, with nine decimals.
impl Display for UtcFields {
    fn fmt(&self, out: &mut Formatter) -> Result {
        let UtcFields { year, month, day, hour, minute, second, nanosecond } = self;
        let (sign, year) = (if *year < 0 { "-" } else { "" }, year.unsigned_abs());
        write!(out, "{sign}{year:04}-{month:02}-{day:02}T{hour:02}:{minute:02}:{second:02}.{nanosecond:09}Z")
    }
}

/// A units text so far: the number of its bytes, 129 where they do not fit, and 1 after the end.
#[repr(C)]
#[derive(Clone, Copy, PartialEq, Eq, Debug)]
pub struct UnitsState {
    pub count: u32,
    pub ended: u32,
    pub bytes: [u8; 128],
}

impl Default for UnitsState {
    fn default() -> UnitsState {
        UnitsState { count: 0, ended: 0, bytes: [0; 128] }
    }
}

#[repr(C)]
#[derive(Clone, Copy, PartialEq, Eq, Debug, Default)]
pub struct AxisAnswer {
    pub number: u32,
    pub axis: Axis,
}

#[repr(C)]
#[derive(Clone, Copy, PartialEq, Eq, Debug, Default)]
pub struct Reading {
    pub number: u32,
    pub instant: i64,
    /// C's `bool`, taken as a byte: 1 for true, 0 for false.
    pub exact: u8,
    pub days_back: u32,
}

#[repr(C)]
#[derive(Clone, Copy, PartialEq, Eq, Debug, Default)]
pub struct OffsetAnswer {
    pub number: u32,
    pub offset: i64,
}

#[repr(C)]
#[derive(Clone, Copy, PartialEq, Eq, Debug, Default)]
pub struct FieldsAnswer {
    pub number: u32,
    pub fields: Fields,
}

#[repr(C)]
#[derive(Clone, Copy, PartialEq, Eq, Debug, Default)]
pub struct DateAnswer {
    pub number: u32,
    pub date: Date,
}

#[repr(C)]
#[derive(Clone, Copy, PartialEq, Eq, Debug, Default)]
pub struct DayAnswer {
    pub number: u32,
    pub day: i64,
}

#[repr(C)]
#[derive(Clone, Copy, PartialEq, Eq, Debug, Default)]
pub struct LengthAnswer {
    pub number: u32,
    pub length: usize,
}

#[repr(C)]
#[derive(Clone, Copy, PartialEq, Eq, Debug, Default)]
pub struct RunAnswer {
    pub number: u32,
    pub place: usize,
    pub length: usize,
    pub rounded: usize,
}

#[repr(C)]
#[derive(Clone, Copy, PartialEq, Eq, Debug, Default)]
pub struct UtcFieldsAnswer {
    pub number: u32,
    pub fields: UtcFields,
}

#[repr(C)]
#[derive(Clone, Copy, PartialEq, Eq, Debug, Default)]
pub struct Tt2000Answer {
    pub number: u32,
    pub tt2000: i64,
}
