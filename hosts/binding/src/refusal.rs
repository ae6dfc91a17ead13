//! Why a call gives no result.

use std::error::Error;
use std::fmt::{Display, Formatter, Result};

#[derive(Clone, Copy, PartialEq, Eq, Debug)]
pub enum Refusal {
    TextTooLong,
    UnknownCalendar,
    IllFormed,
    ImpossibleField,
    OutOfRange,
    Inexact,
    NoRoom,
    NotFinite,
    PartRecord,
    NotATime,
    NotOpen,
    MissingDate,
    DroppedDate,
    BadLeapSeconds,
    Before1972,
    CutoverNotAllowed,
    /// A number for which this crate has no name.
    Other(u32),
}

impl Refusal {
    fn of_number(number: u32) -> Refusal {
        match number {
            1 => Refusal::TextTooLong,
            2 => Refusal::UnknownCalendar,
            3 => Refusal::IllFormed,
            4 => Refusal::ImpossibleField,
            5 => Refusal::OutOfRange,
            6 => Refusal::Inexact,
            7 => Refusal::NoRoom,
            8 => Refusal::NotFinite,
            9 => Refusal::PartRecord,
            10 => Refusal::NotATime,
            11 => Refusal::NotOpen,
            12 => Refusal::MissingDate,
            13 => Refusal::DroppedDate,
            14 => Refusal::BadLeapSeconds,
            15 => Refusal::Before1972,
            16 => Refusal::CutoverNotAllowed,
            _ => Refusal::Other(number),
        }
    }

    pub fn number(self) -> u32 {
        match self {
            Refusal::TextTooLong => 1,
            Refusal::UnknownCalendar => 2,
            Refusal::IllFormed => 3,
            Refusal::ImpossibleField => 4,
            Refusal::OutOfRange => 5,
            Refusal::Inexact => 6,
            Refusal::NoRoom => 7,
            Refusal::NotFinite => 8,
            Refusal::PartRecord => 9,
            Refusal::NotATime => 10,
            Refusal::NotOpen => 11,
            Refusal::MissingDate => 12,
            Refusal::DroppedDate => 13,
            Refusal::BadLeapSeconds => 14,
            Refusal::Before1972 => 15,
            Refusal::CutoverNotAllowed => 16,
            Refusal::Other(number) => number,
        }
    }

    pub fn words(self) -> &'static str {
        match self {
            Refusal::TextTooLong => "the text is longer than 128 bytes",
            Refusal::UnknownCalendar => "the calendar is not one of the six",
            Refusal::IllFormed => {
                "the text is not of the form that its grammar gives, or a code names no period or mode"
            }
            Refusal::ImpossibleField => {
                "a field is one that no date has, such as month 13, day 32, hour 24 or zone hour 24, or second 60 where no leap second is: look for a typing error"
            }
            Refusal::OutOfRange => "the year or the instant lies past -9999 to 9999, or a TT2000 past 64 bits",
            Refusal::Inexact => {
                "no whole offset or number of the unit reads as the instant; the double is not whole in calendar mode; the number is no whole count of microseconds"
            }
            Refusal::NoRoom => "too little room was lent",
            Refusal::NotFinite => "the double is a NaN or infinite",
            Refusal::PartRecord => "the bytes are no whole number of records",
            Refusal::NotATime => "the record is not-a-time",
            Refusal::NotOpen => "the fragments of the units text have ended, or the state is damaged",
            Refusal::MissingDate => {
                "the calendar has no such year or day, such as year 0 or 30 February: look whether it is the calendar that was meant"
            }
            Refusal::DroppedDate => {
                "the calendar left this day out: in `standard` a Julian date after the last day kept and before the cutover, by default 1582-10-05 to 1582-10-14"
            }
            Refusal::BadLeapSeconds => {
                "the list of leap seconds is not good: 1 to 64 records of 16 bytes, the first day 730 with count 10, then later days, each count one more"
            }
            Refusal::Before1972 => "the time lies before 1972-01-01, where the list of leap seconds begins",
            Refusal::CutoverNotAllowed => {
                "the cutover is not allowed in `standard`: it must be a Gregorian date from 1582-10-15 to 1923-12-31, and the dates it drops must lie in one month and leave the first of it"
            }
            Refusal::Other(_) => "a refusal that this crate has no words for",
        }
    }
}

/// What an answer's number says: success, or why not.
pub(crate) fn tested(number: u32) -> std::result::Result<(), Refusal> {
    if number == 0 { Ok(()) } else { Err(Refusal::of_number(number)) }
}

impl Display for Refusal {
    fn fmt(&self, out: &mut Formatter) -> Result {
        write!(out, "refused {}: {}", self.number(), self.words())
    }
}

impl Error for Refusal {}

/// Why a run is refused, and the place, from 0, of the first of its offsets, records, instants, TT2000 or fields that is. The place is 0
/// where none of them is at fault.
#[derive(Clone, Copy, PartialEq, Eq, Debug)]
pub struct RefusedRun {
    pub refusal: Refusal,
    pub place: usize,
}

impl Display for RefusedRun {
    fn fmt(&self, out: &mut Formatter) -> Result {
        write!(out, "{}, at place {}", self.refusal, self.place)
    }
}

impl Error for RefusedRun {}
