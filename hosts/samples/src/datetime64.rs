//! Numbers and instants of datetime64 arrays: around what each unit can hold, its multiples and what lies beside them.

use crate::{Random, instants};
use second::datetime64::read_number;
use second::datetime64_type::{ByteOrder, Unit};

const PROLEPTIC_GREGORIAN: u32 = 1;
const EXTREMES: [i64; 7] = [i64::MIN, i64::MIN + 1, i64::MIN + 2, -1, 1, i64::MAX - 1, i64::MAX];

pub fn records(order: ByteOrder, numbers: &[i64]) -> Vec<u8> {
    numbers.iter().flat_map(|&number| order.record(number)).collect()
}

fn clamped(wide: i128) -> i64 {
    wide.clamp(i64::MIN as i128, i64::MAX as i128) as i64
}

fn first_and_last() -> [i64; 2] {
    [instants::first(PROLEPTIC_GREGORIAN), instants::last(PROLEPTIC_GREGORIAN)]
}

/// How many of a unit are the least step from one number that is read to the next.
fn step(unit: Unit) -> i64 {
    if let Unit::Decimals(decimals) = unit { 10i64.pow(decimals) } else { 1 }
}

/// The numbers at the ends of the years -9999 to 9999, or of 64 bits where these come first. The last of them that is read is a step
/// or less away.
fn ends(unit: Unit) -> [i64; 2] {
    match unit {
        Unit::Year => [-9999 - 1970, 9999 - 1970],
        Unit::Month => [12 * (-9999 - 1970), 12 * (9999 - 1970) + 11],
        Unit::Fixed(length) => first_and_last().map(|instant| instant.div_euclid(length)),
        Unit::Decimals(_) => {
            first_and_last().map(|end| clamped(end as i128 * step(unit) as i128) / step(unit) * step(unit))
        }
    }
}

/// Numbers about zero, about the ends, and about powers of ten.
pub fn edges(unit: Unit) -> Vec<i64> {
    let powers = (0..19).map(|exponent| 10i64.pow(exponent)).flat_map(|power| [power, -power]);
    let about = powers
        .chain(ends(unit))
        .chain([0])
        .flat_map(|n| [-step(unit), -2, -1, 0, 1, 2, step(unit)].map(|by| n.wrapping_add(by)));
    about.chain(EXTREMES).collect()
}

/// A number and its kind.
pub fn number(random: &mut Random, unit: Unit) -> (&'static str, i64) {
    let [first, last] = ends(unit);
    let power = 10i64.pow(random.pick(&[1, 3, 6, 9, 12]));
    match random.below(8) {
        0 => ("small", random.between(-40, 40)),
        1 => ("any number of bits", random.bits() as i64 >> random.below(64)),
        2 => ("extremes", random.pick(&EXTREMES)),
        3 => {
            let end = random.pick(&[first, last]);
            ("around the ends", end.wrapping_add(random.between(-3, 3).wrapping_mul(random.pick(&[1, step(unit)]))))
        }
        4 => {
            let multiple = (random.bits() as i64 >> random.below(64)) / power * power;
            ("about multiples of powers of ten", multiple.wrapping_add(random.between(-1, 1)))
        }
        _ => ("within the years", random.between(first, last) / step(unit) * step(unit)),
    }
}

/// An instant and its kind.
pub fn instant(random: &mut Random, unit: Unit) -> (&'static str, i64) {
    let read = read_number(unit, number(random, unit).1);
    let month = read_number(Unit::Month, number(random, Unit::Month).1).unwrap_or(0);
    let [first, last] = first_and_last();
    match (random.below(8), read) {
        (0, _) => ("around the ends of the years", random.pick(&[first, last]) + random.between(-3, 3)),
        (1, _) => ("extremes", random.pick(&EXTREMES)),
        (2, _) => {
            ("about the first of a month", month + random.between(-1, 1) * random.pick(&[1, 1000, instants::DAY]))
        }
        (3, _) => {
            let end = random.pick(&[i64::MIN, i64::MAX]) / step(unit);
            ("around the ends of 64 bits", end.wrapping_add(random.between(-3, 3)))
        }
        (4, Ok(instant)) => ("a microsecond beside one that is read", instant + random.pick(&[-1, 1])),
        (5, Ok(instant)) => ("some days beside one that is read", instant + random.between(-3, 3) * instants::DAY),
        (_, Ok(instant)) => ("read from a number", instant),
        _ => ("any of the years", random.between(first, last)),
    }
}
