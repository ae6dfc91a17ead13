//! The rules of documents 01 and 02 that the proved library keeps, implemented a second time by other means, so that the two can be
//! compared.
//!
//! - Day numbers come from tables that the next-day rule fills day by day (`days`).
//! - The last day before a cutover is found by stepping both calendars together, and the dropped dates by stepping on (`cutover`).
//! - A day of the month that a calendar step does not find is stepped back day by day, and the steps are counted (`calendar_mode`).
//! - The months and days that are possible are those that a walk through the calendars meets (`fields`).
//! - A double is an exact fraction of big integers (`dyadic`), and rounding compares exact remainders (`nearest`).
//! - A text is matched in every way that its grammar allows (`ways`, `date_text`, `units_text`, `datetime64_type`).
//! - Of a text in fragments each byte is put at its place alone (`fragments`).
//! - The days of UTC are walked one by one with their leap seconds (`leap_seconds`), and a TT2000 is sought among their starts (`tt2000`).
//! - Writing searches for the offset, or the number of a record, among the readings (`writing`, `datetime64`).
//!
//! `boundary` has a counterpart for each call of the C boundary. It is slow, and nothing in it is proved.

pub mod axis;
pub mod boundary;
pub mod calendar;
pub mod calendar_mode;
pub mod codes;
pub mod cutover;
pub mod date_text;
pub mod datetime64;
pub mod datetime64_type;
pub mod days;
pub mod dyadic;
pub mod fields;
pub mod fragments;
pub mod instant;
pub mod integer;
pub mod iso;
pub mod leap_seconds;
pub mod listing;
pub mod natural;
pub mod nearest;
pub mod next_day;
pub mod reading;
pub mod refusal;
pub mod runs;
pub mod tt2000;
pub mod units_text;
pub mod ways;
pub mod writing;
