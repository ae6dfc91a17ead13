//! Single offsets read and written.

use super::{FROM_1900, axis, english_months, summed, whole_offsets};
use crate::plain;
use crate::timing::{compare, print_missing};
use answers::{Axis, OffsetAnswer, Reading};
use samples::{Random, instants};
use uppinalo::{is_exported, raw};

type Read<T> = unsafe extern "C" fn(Axis, T) -> Reading;
type WriteInstant = unsafe extern "C" fn(Axis, i64) -> OffsetAnswer;

fn read<T: Copy>(label: &str, axis: Axis, inputs: Vec<T>, ours: Read<T>, plain: Read<T>) {
    let sum = |call: Read<T>| {
        summed(&inputs, call, |call, offset| {
            let Reading { number, instant, exact, days_back } = unsafe { call(axis, offset) };
            instant as u64 ^ number as u64 ^ exact as u64 ^ (days_back as u64) << 32
        })
    };
    compare(label, inputs.len(), || sum(ours), || sum(plain));
}

pub fn reading() {
    if !is_exported("read_whole") || !is_exported("read_double") {
        return print_missing("one offset read");
    }
    let mut random = Random::seeded(8);
    let wholes = |axis| whole_offsets(&mut Random::seeded(9), axis);
    let whole = |label: &str, axis: Axis| {
        read(label, axis, wholes(axis), raw::uppinalo_read_whole, plain::wholes::read_whole);
    };
    whole("one whole offset read, days", axis(1, 4, 0));
    whole("one whole offset read, calendar months", axis(0, 6, 1));
    let from_31st = Axis { reference: FROM_1900 + 30 * instants::DAY, ..axis(0, 6, 1) };
    whole("one whole offset read, calendar months from the 31st", from_31st);
    whole("one whole offset read, calendar years", axis(2, 7, 1));
    whole("one whole offset read, months, English cutover", english_months());
    let mut double = |label: &str, axis: Axis, is_whole: bool| {
        let fraction = |whole: i64| whole as f64 + (random.bits() >> 11) as f64 / (1u64 << 53) as f64;
        let inputs = wholes(axis).into_iter();
        let inputs = if is_whole { inputs.map(|n| n as f64).collect() } else { inputs.map(fraction).collect() };
        read(label, axis, inputs, raw::uppinalo_read_double, plain::doubles::read_double);
    };
    double("one double read, days, fractions", axis(1, 4, 0), false);
    double("one double read, seconds, fractions", axis(0, 0, 0), false);
    double("one double read, calendar months", axis(1, 6, 1), true);
}

/// Three of four instants can be written.
pub fn writing() {
    if !is_exported("write_instant") {
        return print_missing("offset written");
    }
    let mut random = Random::seeded(7);
    let mut write = |label: &str, axis: Axis| {
        let instant = |offset| plain::wholes::read_whole(axis, offset).instant;
        let offsets = whole_offsets(&mut random, axis).into_iter();
        let inputs: Vec<i64> = offsets.map(|offset| instant(offset) + random.one_in(4) as i64).collect();
        let sum = |call: WriteInstant| {
            summed(&inputs, call, |call, instant| {
                let OffsetAnswer { number, offset } = unsafe { call(axis, instant) };
                offset as u64 ^ number as u64
            })
        };
        compare(label, inputs.len(), || sum(raw::uppinalo_write_instant), || sum(plain::writing::write_instant));
    };
    write("offset written, days", axis(1, 4, 0));
    write("offset written, seconds", axis(0, 0, 0));
    write("offset written, calendar months", axis(0, 6, 1));
    write("offset written, calendar years", axis(3, 7, 1));
}
