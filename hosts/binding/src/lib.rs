//! The proved library's archive, as safe Rust.
//!
//!     let axis = Axis::of_units("noleap", None, "days since 1850-01-01")?;
//!     let reading = axis.read(59.5)?;
//!     assert_eq!(axis.iso_text(reading.instant)?, "1850-03-01T12:00:00.000000Z");
//!
//! `None` stands for the cutover of 1582. An English diary has another one:
//!
//!     let axis = Axis::of_units("standard", Date { year: 1752, month: 9, day: 14 }, "days since 1752-09-02")?;
//!     assert_eq!(axis.iso_text(axis.read(1)?.instant)?, "1752-09-14T00:00:00.000000Z");
//!
//! What a call means, `include/uppinalo.h` says. No use of this crate without `unsafe` has undefined behaviour, as long as the
//! archive keeps to that header.

mod axis;
pub mod boundary;
mod calendar;
pub mod datetime64;
mod leap_seconds;
pub mod raw;
mod refusal;
mod units_reader;

pub use answers::{CUTOVER_1582, Date, Fields, UtcFields};
pub use axis::{Axis, Mode, Offset, Period, Reading, Run};
pub use calendar::{Calendar, read_iso};
pub use leap_seconds::LeapSeconds;
pub use refusal::{Refusal, RefusedRun};
pub use units_reader::UnitsReader;

#[cfg(feature = "stub")]
extern crate stub as _;

/// Whether the archive has a call yet. A call that it has not ends the process.
pub fn is_exported(call: &str) -> bool {
    env!("UPPINALO_CALLS").split(' ').any(|name| name == call)
}
