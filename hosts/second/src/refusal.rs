//! The refusals of document 01, "Numbers returned", and of document 02.

#[derive(Clone, Copy, PartialEq, Eq, Debug)]
pub enum Refusal {
    TextTooLong = 1,
    UnknownCalendar = 2,
    IllFormed = 3,
    ImpossibleField = 4,
    OutOfRange = 5,
    Inexact = 6,
    NoRoom = 7,
    NotFinite = 8,
    PartRecord = 9,
    NotATime = 10,
    NotOpen = 11,
    MissingDate = 12,
    DroppedDate = 13,
    BadLeapSeconds = 14,
    Before1972 = 15,
    CutoverNotAllowed = 16,
}

impl Refusal {
    pub fn number(self) -> u32 {
        self as u32
    }
}
