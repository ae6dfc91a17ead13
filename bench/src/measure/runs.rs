//! Runs of doubles and of whole offsets. The destination is written whole each time and not cleared between.

use super::{axis, english_months, whole_offsets};
use crate::plain;
use crate::timing::{compare, print_missing};
use answers::{Axis, RunAnswer};
use samples::Random;
use std::hint::black_box;
use uppinalo::{is_exported, raw};

type Read<T> = unsafe extern "C" fn(Axis, *const T, usize, *mut i64, usize) -> RunAnswer;

/// One run, and a sum of its answer and some of the instants.
fn sum<T>(call: Read<T>, axis: Axis, source: &[T], room: &mut [i64]) -> u64 {
    let answer = unsafe { black_box(call)(axis, source.as_ptr(), source.len(), room.as_mut_ptr(), room.len()) };
    let sum = room.iter().step_by(64).fold(0u64, |sum, &instant| sum.wrapping_add(instant as u64));
    sum ^ answer.number as u64 ^ answer.length as u64 ^ (answer.rounded as u64) << 32
}

fn measure<T>(label: &str, axis: Axis, source: &[T], ours: Read<T>, plain: Read<T>) {
    let (mut room, mut other) = (vec![0; source.len()], vec![0; source.len()]);
    compare(label, source.len(), || sum(ours, axis, source, &mut room), || sum(plain, axis, source, &mut other));
    assert_eq!(room, other, "{label}: the instants differ");
}

/// The whole offsets, each with a fraction of 40 bits added.
fn with_fractions(random: &mut Random, wholes: Vec<i64>) -> Vec<f64> {
    wholes.into_iter().map(|whole| whole as f64 + random.below(1 << 40) as f64 / (1u64 << 40) as f64).collect()
}

pub fn doubles() {
    if !is_exported("read_doubles") {
        return print_missing("run of doubles");
    }
    let mut random = Random::seeded(4);
    let mut run = |label: &str, axis: Axis, is_whole: bool| {
        let wholes = whole_offsets(&mut random, axis);
        let source =
            if is_whole { wholes.iter().map(|&n| n as f64).collect() } else { with_fractions(&mut random, wholes) };
        measure(label, axis, &source, raw::uppinalo_read_doubles, plain::runs::read_doubles);
    };
    run("run of doubles, days, fractions", axis(1, 4, 0), false);
    run("run of doubles, seconds, fractions", axis(0, 0, 0), false);
    run("run of doubles, hours, whole", axis(3, 3, 0), true);
    run("run of doubles, fixed months, fractions", axis(1, 6, 0), false);
    run("run of doubles, calendar days", axis(1, 4, 1), true);
    run("run of doubles, calendar months", axis(1, 6, 1), true);
}

pub fn wholes() {
    if !is_exported("read_wholes") {
        return print_missing("run of whole offsets");
    }
    let mut random = Random::seeded(5);
    let mut run = |label: &str, axis: Axis| {
        let source = whole_offsets(&mut random, axis);
        measure(label, axis, &source, raw::uppinalo_read_wholes, plain::runs::read_wholes);
    };
    run("run of whole offsets, days", axis(1, 4, 0));
    run("run of whole offsets, milliseconds", axis(5, 1, 0));
    run("run of whole offsets, calendar months", axis(0, 6, 1));
    run("run of whole offsets, calendar years", axis(2, 7, 1));
    run("run of whole offsets, months, English cutover", english_months());
}

/// How the cost of an element changes with the run's length.
pub fn growth() {
    if !is_exported("read_doubles") {
        return print_missing("run of doubles, by its length");
    }
    let mut random = Random::seeded(6);
    let axis = axis(1, 4, 0);
    for length in [1, 10, 100, 1_000, 10_000, 100_000, 1_000_000] {
        let wholes = (0..length).map(|_| random.between(-36_500, 36_500)).collect();
        let source = with_fractions(&mut random, wholes);
        let (mut room, mut other) = (vec![0; length], vec![0; length]);
        let turns = (100_000 / length).max(1);
        let label = format!("run of {length} doubles, days, fractions");
        let ours = || (0..turns).fold(0, |_, _| sum(raw::uppinalo_read_doubles, axis, &source, &mut room));
        let plain = || (0..turns).fold(0, |_, _| sum(plain::runs::read_doubles, axis, &source, &mut other));
        compare(&label, length * turns, ours, plain);
    }
}
