//! The exact value of a double against its bits, and rounding at the edges.

use second::axis::{Axis, Mode, Period};
use second::calendar::Calendar;
use second::cutover::OF_1582;
use second::dyadic::Dyadic;
use second::integer::Integer;
use second::reading::{Reading, read_double, read_whole};
use second::refusal::Refusal;

/// A double's value times 2^1074, from its bits.
fn from_bits(x: f64) -> Integer {
    let bits = x.to_bits();
    let field = (bits >> 52 & 2047) as usize;
    let fraction = (bits % (1 << 52)) as i128;
    let size =
        if field == 0 { Integer::from(fraction) } else { Integer::from(fraction + (1 << 52)).doubled(field - 1) };
    if bits >> 63 == 1 { size.negated() } else { size }
}

fn agrees(x: f64) {
    let value = Dyadic::of_double(x).unwrap();
    assert_eq!(value.numerator.doubled(1074 - value.halvings), from_bits(x), "{x:e}");
}

#[test]
fn value_is_that_of_the_bits() {
    let mut state = 1u64;
    for _ in 0..20_000 {
        state = state.wrapping_mul(6_364_136_223_846_793_005).wrapping_add(1_442_695_040_888_963_407);
        let x = f64::from_bits(state ^ state >> 29);
        if x.is_finite() {
            agrees(x);
        }
    }
    for exponent in 0..2047u64 {
        for fraction in [0, 1, (1 << 52) - 1] {
            agrees(f64::from_bits(exponent << 52 | fraction));
        }
    }
    for edge in [0.0, -0.0, 0.5, -1.5, 9_007_199_254_740_991.0, 9_007_199_254_740_992.0, f64::MAX, f64::MIN] {
        agrees(edge);
    }
}

fn axis(period: Period, mode: Mode, reference: i64) -> Axis {
    Axis { calendar: Calendar::ProlepticGregorian, period, mode, reference, cutover: OF_1582.first }
}

fn reading(instant: i64, exact: bool) -> Reading {
    Reading { instant, exact, days_back: 0 }
}

#[test]
fn ties_go_to_the_even_displacement() {
    let read = |x: f64, reference| read_double(axis(Period::Millisecond, Mode::Fixed, reference), x).unwrap();
    for (x, displacement) in [(1.0 / 16.0, 62), (3.0 / 16.0, 188), (5.0 / 16.0, 312), (0.5 / 1024.0, 0), (0.0005, 1)] {
        for reference in [0, 1, -1, -62, 1_000_001] {
            assert_eq!(read(x, reference), reading(reference + displacement, false), "{x}");
            assert_eq!(read(-x, reference), reading(reference - displacement, false), "-{x}");
        }
    }
    assert_eq!(read(0.125, 3), reading(128, true));
    assert_eq!(read(f64::from_bits(1), 3), reading(3, false));
    assert_eq!(read(-f64::from_bits(1), -3), reading(-3, false));
    assert_eq!(read(-0.0, 3), reading(3, true));
}

/// Rounding comes before the range: a time past the last microsecond may still round to it.
#[test]
fn range_after_rounding() {
    let last = 253_402_300_799_999_999;
    let read = |x: f64| read_double(axis(Period::Millisecond, Mode::Fixed, last), x);
    assert_eq!(read(1.0 / 4096.0), Ok(reading(last, false)));
    assert_eq!(read(1.0 / 1024.0), Err(Refusal::OutOfRange));
    assert_eq!(read(f64::MAX), Err(Refusal::OutOfRange));
    assert_eq!(read(f64::MIN), Err(Refusal::OutOfRange));
    assert_eq!(read(f64::INFINITY), Err(Refusal::NotFinite));
    assert_eq!(read(f64::NAN), Err(Refusal::NotFinite));
}

#[test]
fn calendar_mode_takes_whole_doubles() {
    for period in [Period::Day, Period::Month, Period::Year, Period::Millisecond] {
        let axis = axis(period, Mode::Calendar, 0);
        assert_eq!(read_double(axis, 12.0), read_whole(axis, 12));
        assert_eq!(read_double(axis, -0.0), read_whole(axis, 0));
        assert_eq!(read_double(axis, 0.5), Err(Refusal::Inexact));
        assert_eq!(read_double(axis, 1e18), Err(Refusal::OutOfRange));
        assert_eq!(read_double(axis, 1e300), Err(Refusal::OutOfRange));
        assert_eq!(read_double(axis, f64::NEG_INFINITY), Err(Refusal::NotFinite));
    }
}

/// A whole double on a fixed axis reads as the whole offset does.
#[test]
fn whole_doubles() {
    for period in [Period::Second, Period::Week, Period::Month, Period::Year] {
        for offset in [-9000, -1, 0, 1, 2, 7777] {
            let axis = axis(period, Mode::Fixed, -12_345);
            assert_eq!(read_double(axis, offset as f64), read_whole(axis, offset));
        }
    }
}
