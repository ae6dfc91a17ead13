//! Doubles on an axis: fractions, ties between two microseconds and their neighbours, ends of the range, and raw bits.

use crate::wholes::{displacement, period};
use crate::{Random, wholes};
use answers::Axis;

pub const EDGES: [f64; 24] = [
    0.0,
    f64::from_bits(1),
    f64::MIN_POSITIVE,
    f64::from_bits(0x000f_ffff_ffff_ffff),
    f64::EPSILON,
    1.0 / 128.0,
    3.0 / 128.0,
    0.5,
    0.499_999_999_999_999_94,
    1.0,
    1.5,
    2.0,
    4_503_599_627_370_495.5,
    4_503_599_627_370_496.0,
    9_007_199_254_740_991.0,
    9_007_199_254_740_992.0,
    9_223_372_036_854_774_784.0,
    9_223_372_036_854_775_808.0,
    18_446_744_073_709_551_616.0,
    1e30,
    8.98846567431158e307,
    f64::MAX,
    f64::INFINITY,
    f64::NAN,
];

/// An odd number of halves of the least offset that is a whole number of microseconds, so the time is half-way between two.
fn tie(random: &mut Random, axis: Axis) -> f64 {
    let twos = period(axis).trailing_zeros();
    let odd = random.between(-(1 << 50), 1 << 50) >> random.below(50) | 1;
    odd as f64 / (1u64 << (twos + 1)) as f64
}

/// A double so many places after another, in the order of the numbers.
fn neighbour(x: f64, places: i64) -> f64 {
    if x == 0.0 {
        return x;
    }
    f64::from_bits((x.to_bits() as i64 + places) as u64)
}

fn fraction(random: &mut Random, axis: Axis) -> f64 {
    let whole = displacement(random, axis, false) / period(axis) as i128;
    whole as f64 + random.below(1 << 52) as f64 / (1u64 << 52) as f64
}

/// The exact end of the range as an offset, half a microsecond about it, and neighbours.
fn end(random: &mut Random, axis: Axis) -> f64 {
    let halves = displacement(random, axis, true) * 2 + random.between(-3, 3) as i128;
    let x = halves as f64 / 2.0 / period(axis) as f64;
    neighbour(x, random.between(-2, 2))
}

/// A double and its kind.
pub fn double(random: &mut Random, axis: Axis) -> (&'static str, f64) {
    match random.below(10) {
        0 => ("raw bits", f64::from_bits(random.bits())),
        1 | 2 => ("fractions", fraction(random, axis)),
        3 => ("ties", tie(random, axis)),
        4 => {
            let x = tie(random, axis);
            ("neighbours of ties", neighbour(x, random.pick(&[-1, 1])))
        }
        5 => ("around the ends", end(random, axis)),
        6 => ("whole", wholes::offset(random, axis).1 as f64),
        7 => {
            let x = wholes::offset(random, axis).1 as f64;
            ("neighbours of whole numbers", neighbour(x, random.pick(&[-1, 1])))
        }
        8 => ("tiny", f64::from_bits(random.bits() >> random.pick(&[2, 4, 12, 30, 60]))),
        _ => ("edges", random.pick(&EDGES) * random.pick(&[1.0, -1.0])),
    }
}
