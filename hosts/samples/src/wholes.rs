//! Whole offsets on an axis: near its reference, around the ends of its range, and anywhere.

use crate::{Random, instants};
use answers::Axis;
use second::axis::PERIODS;

/// The length of a known period, or of a second.
pub fn period(axis: Axis) -> i64 {
    PERIODS.get(axis.period as usize).map_or(1_000_000, |period| period.microseconds())
}

/// The displacement to one end of the calendar's range, or to some instant between.
pub fn displacement(random: &mut Random, axis: Axis, is_end: bool) -> i128 {
    let calendar = axis.calendar.min(5);
    let (first, last) = (instants::first(calendar), instants::last(calendar));
    let to = match random.below(2) {
        _ if !is_end => random.between(first, last),
        0 => first,
        _ => last,
    };
    to as i128 - axis.reference as i128
}

/// Calendar steps to one end of the range, give or take a few.
fn steps_to_an_end(random: &mut Random, axis: Axis) -> i64 {
    let years = displacement(random, axis, true) / 31_556_952_000_000;
    let steps = if axis.period == 6 { years * 12 } else { years };
    steps as i64 + random.between(-30, 30)
}

/// An offset and its kind.
pub fn offset(random: &mut Random, axis: Axis) -> (&'static str, i64) {
    let clamped = |wide: i128| wide.clamp(i64::MIN as i128, i64::MAX as i128) as i64;
    match random.below(8) {
        0 => ("small", random.between(-40, 40)),
        1 => ("any 64 bits", random.bits() as i64),
        2 => ("any number of bits", random.bits() as i64 >> random.below(64)),
        3 => ("extremes", random.pick(&[i64::MIN, i64::MAX, i64::MIN + 1, i64::MAX - 1, 1 << 53, 1 << 62])),
        4 if axis.mode == 1 && axis.period >= 6 => ("around the ends", steps_to_an_end(random, axis)),
        4 => {
            let whole = displacement(random, axis, true) / period(axis) as i128;
            ("around the ends", clamped(whole + random.between(-3, 3) as i128))
        }
        5 if axis.mode == 1 => ("calendar steps", random.between(-24_000, 24_000)),
        _ => ("within the range", clamped(displacement(random, axis, false) / period(axis) as i128)),
    }
}
