//! The archive's calls in plain Rust: closed formulas, machine arithmetic, no proof. Each public function is called as the
//! archive's are, by the C calling convention and never inlined, and answers the same structs.
//! It is here to be timed against; tests hold it to the second program's answers.

pub mod civil;
pub mod clock;
pub mod cutover;
pub mod datetime64;
mod datetime64_units;
pub mod days;
pub mod doubles;
pub mod fragments;
pub mod iso;
pub mod listing;
pub mod period;
pub mod runs;
pub mod scanner;
pub mod tt2000;
pub mod units;
pub mod wholes;
pub mod writing;

use std::slice;

/// What a caller lends, as slices.
///
/// # Safety
/// The pointers are to so many elements, or the length is zero.
pub(crate) unsafe fn lent<'a, T>(start: *const T, length: usize) -> &'a [T] {
    if length == 0 { &[] } else { unsafe { slice::from_raw_parts(start, length) } }
}

/// # Safety
/// As of `lent`, and nothing else reads or writes the elements.
pub(crate) unsafe fn lent_mut<'a, T>(start: *mut T, length: usize) -> &'a mut [T] {
    if length == 0 { &mut [] } else { unsafe { slice::from_raw_parts_mut(start, length) } }
}
