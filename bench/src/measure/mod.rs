//! What is measured: each call of the archive beside its plain Rust, on the same inputs.

pub mod calendars;
pub mod datetime64;
pub mod fragments;
pub mod listing;
pub mod offsets;
pub mod runs;
pub mod texts;
pub mod tt2000;

use answers::{Axis, CUTOVER_1582, Date};
use samples::cutovers::ENGLISH;
use samples::{Random, instants};
use std::hint::black_box;

const ELEMENTS: usize = 1 << 15;
const NAMES: [&str; 6] = ["standard", "proleptic_gregorian", "julian", "noleap", "all_leap", "360_day"];

/// 1900-01-01 of `proleptic_gregorian`.
const FROM_1900: i64 = -25_567 * instants::DAY;

/// The sum of a call's answers over all inputs. The function's address is hidden, so that no call is inlined.
fn summed<T: Copy, F>(inputs: &[T], call: F, one: impl Fn(&F, T) -> u64) -> u64 {
    let call = black_box(call);
    inputs.iter().fold(0, |sum, &input| sum.wrapping_add(one(&call, input)))
}

/// For each calendar, a label and instants over all years, and the same near today; then of `standard` in the years of the cutovers, and with
/// the English one.
fn each_span(what: &str, seed: u64, measure: impl Fn(&str, u32, Date, Vec<i64>)) {
    let mut random = Random::seeded(seed);
    for (calendar, name) in (0..).zip(NAMES) {
        let all = instants::over_all_years(&mut random, calendar, ELEMENTS);
        let near = instants::from_1850_to_2100(&mut random, calendar, ELEMENTS);
        measure(&format!("{what}, {name}, all years"), calendar, CUTOVER_1582, all);
        measure(&format!("{what}, {name}, 1850-2100"), calendar, CUTOVER_1582, near);
    }
    let all = instants::over_all_years(&mut random, 0, ELEMENTS);
    let between = instants::from_1582_to_1923(&mut random, 0, ELEMENTS);
    measure(&format!("{what}, standard, 1582-1923"), 0, CUTOVER_1582, between.clone());
    measure(&format!("{what}, English cutover, all years"), 0, ENGLISH, all);
    measure(&format!("{what}, English cutover, 1582-1923"), 0, ENGLISH, between);
}

fn axis(calendar: u32, period: u32, mode: u32) -> Axis {
    Axis { calendar, period, mode, reference: FROM_1900, cutover: CUTOVER_1582 }
}

/// Calendar months from 1752-09-20 with the English cutover.
fn english_months() -> Axis {
    Axis { reference: -79_360 * instants::DAY, cutover: ENGLISH, ..axis(0, 6, 1) }
}

/// Whole offsets of both signs, within about 100 years of the reference.
fn whole_offsets(random: &mut Random, axis: Axis) -> Vec<i64> {
    let span = 100 * 365 * instants::DAY / crate::plain::period::microseconds(axis.period);
    (0..ELEMENTS).map(|_| random.between(-span, span)).collect()
}
