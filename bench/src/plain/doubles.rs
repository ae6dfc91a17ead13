//! Doubles read: the significand times the period in 128 bits, shifted and rounded half to even.

use super::wholes::Start;
use super::{clock, period};
use answers::{Axis, Reading};

/// A double's sign, significand and power of two.
fn parts(x: f64) -> (bool, u64, i32) {
    let bits = x.to_bits();
    let field = (bits >> 52 & 2047) as i32;
    let fraction = bits & ((1 << 52) - 1);
    if field == 0 { (bits >> 63 == 1, fraction, -1074) } else { (bits >> 63 == 1, fraction | 1 << 52, field - 1075) }
}

/// The size of a finite double times a period, rounded, and whether it is exact. None where it is past 2^63.
fn displacement(significand: u64, power: i32, period: i64) -> Option<(i64, bool)> {
    let product = significand as u128 * period as u128;
    if power > 10 {
        return None;
    }
    if power >= 0 {
        let wide = product << power;
        return (wide < 1 << 63).then_some((wide as i64, true));
    }
    let shift = -power as u32;
    if shift > 126 {
        return Some((0, product == 0));
    }
    let (quotient, rest, half) = (product >> shift, product & ((1 << shift) - 1), 1 << (shift - 1));
    let up = rest > half || (rest == half && quotient & 1 == 1);
    let rounded = quotient + up as u128;
    (rounded < 1 << 63).then_some((rounded as i64, rest == 0))
}

fn read_fixed(axis: Axis, x: f64) -> Reading {
    let refused = Reading { number: 5, ..Default::default() };
    let (is_negative, significand, power) = parts(x);
    let Some((size, exact)) = displacement(significand, power, period::microseconds(axis.period)) else {
        return refused;
    };
    match axis.reference.checked_add(if is_negative { -size } else { size }) {
        Some(instant) if clock::is_in_range(axis.calendar, instant) => {
            Reading { number: 0, instant, exact: exact as u8, days_back: 0 }
        }
        _ => refused,
    }
}

fn read_calendar(start: &Start, x: f64) -> Reading {
    if x != x.trunc() {
        return Reading { number: 6, ..Default::default() };
    }
    if !(-9_223_372_036_854_775_808.0..9_223_372_036_854_775_808.0).contains(&x) {
        return Reading { number: 5, ..Default::default() };
    }
    start.read(x as i64)
}

/// A double on a good axis.
pub fn read(start: &Start, x: f64) -> Reading {
    if !x.is_finite() {
        return Reading { number: 8, ..Default::default() };
    }
    if start.axis.mode == 0 { read_fixed(start.axis, x) } else { read_calendar(start, x) }
}

#[inline(never)]
pub extern "C" fn read_double(axis: Axis, x: f64) -> Reading {
    match period::refusal(axis) {
        0 => read(&Start::of(axis), x),
        number => Reading { number, ..Default::default() },
    }
}
