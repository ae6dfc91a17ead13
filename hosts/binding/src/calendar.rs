//! Calendars: days, instants, and their ISO texts.

use crate::axis::Reading;
use crate::boundary;
use crate::refusal::{Refusal, tested};
use answers::{CUTOVER_1582, Date, Fields};

/// `Standard` and `Julian` have no year 0: year 1 comes after -1. The others have one.
///
/// `Standard` is Julian up to its cutover, the first Gregorian date. Every call that takes a cutover takes `None` for that of 1582; the other
/// calendars do not look at it.
#[derive(Clone, Copy, PartialEq, Eq, Hash, Debug)]
pub enum Calendar {
    Standard,
    ProlepticGregorian,
    Julian,
    Noleap,
    AllLeap,
    Day360,
}

const CALENDARS: [Calendar; 6] = [
    Calendar::Standard,
    Calendar::ProlepticGregorian,
    Calendar::Julian,
    Calendar::Noleap,
    Calendar::AllLeap,
    Calendar::Day360,
];

/// The cutover that is given, or that of 1582.
pub(crate) fn or_of_1582(cutover: impl Into<Option<Date>>) -> Date {
    cutover.into().unwrap_or(CUTOVER_1582)
}

impl Calendar {
    pub fn code(self) -> u32 {
        self as u32
    }

    pub(crate) fn of_code(code: u32) -> Option<Calendar> {
        CALENDARS.get(code as usize).copied()
    }

    pub fn fields_of(self, cutover: impl Into<Option<Date>>, instant: i64) -> Result<Fields, Refusal> {
        let answer = boundary::fields_of(self.code(), or_of_1582(cutover), instant);
        tested(answer.number).map(|()| answer.fields)
    }

    pub fn date_of_day(self, cutover: impl Into<Option<Date>>, day: i64) -> Result<Date, Refusal> {
        let answer = boundary::date_of_day(self.code(), or_of_1582(cutover), day);
        tested(answer.number).map(|()| answer.date)
    }

    pub fn day_of_date(self, cutover: impl Into<Option<Date>>, date: Date) -> Result<i64, Refusal> {
        let answer = boundary::day_of_date(self.code(), or_of_1582(cutover), date);
        tested(answer.number).map(|()| answer.day)
    }

    /// Puts the ISO text at the start of the room, and answers its length. The bytes after it stay.
    pub fn write_iso(self, cutover: impl Into<Option<Date>>, instant: i64, room: &mut [u8]) -> Result<usize, Refusal> {
        let answer = boundary::write_iso(self.code(), or_of_1582(cutover), instant, room);
        tested(answer.number).map(|()| answer.length)
    }

    pub fn iso_text(self, cutover: impl Into<Option<Date>>, instant: i64) -> Result<String, Refusal> {
        let mut room = [0; 28];
        let length = self.write_iso(cutover, instant, &mut room)?;
        Ok(room[..length].iter().map(|&byte| byte as char).collect())
    }
}

/// The instant that an ISO text names in the calendar of a name.
pub fn read_iso(calendar: &str, cutover: impl Into<Option<Date>>, text: &str) -> Result<Reading, Refusal> {
    Reading::of_answer(boundary::read_iso(calendar.as_bytes(), or_of_1582(cutover), text.as_bytes()))
}
