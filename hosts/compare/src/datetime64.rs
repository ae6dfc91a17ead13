//! datetime64 arrays read and written: every identifier and texts near it, lengths and rooms that fit or do not, refusals in every
//! order, and that what was read is written as the same bytes.

use crate::arrays::{Arrays, Input};
use crate::run::Run;
use samples::datetime64::{edges, instant, number, records};
use samples::identifiers::{near, types};
use samples::{Random, damage, instants};
use second::boundary;
use second::datetime64::{read_number, write_instant};
use second::datetime64_type::{Datetime64Type, Unit};
use std::ptr::{null, null_mut};
use uppinalo::{boundary as archive, raw};

const RECORD: usize = 8;
const PROLEPTIC_GREGORIAN: u32 = 1;

/// Every sequence of four, each one of some numbers.
fn fours(of: &[i64]) -> Vec<[i64; 4]> {
    let one = |code: usize, place: u32| of[code / of.len().pow(place) % of.len()];
    (0..of.len().pow(4)).map(|code| [0, 1, 2, 3].map(|place| one(code, place))).collect()
}

fn any_type(random: &mut Random) -> (Vec<u8>, Datetime64Type) {
    types().swap_remove(random.below(26) as usize)
}

/// The identifier, or now and then a damaged one.
fn damaged(random: &mut Random, identifier: Vec<u8>) -> (Option<&'static str>, Vec<u8>) {
    match random.below(20) {
        0 => (Some("run, its identifier damaged"), damage::damaged(random, identifier).1),
        _ => (None, identifier),
    }
}

type Draw = fn(&mut Random, Unit) -> (&'static str, i64);

/// A run of elements that all are good, or with one that may be refused, or of any elements.
fn drawn(random: &mut Random, unit: Unit, draw: Draw, is_good: impl Fn(i64) -> bool) -> (&'static str, Vec<i64>) {
    let most = random.pick(&[1, 4, 20, 200, 1000]);
    let mut elements: Vec<i64> = (0..random.below(most + 1)).map(|_| draw(random, unit).1).collect();
    if random.one_in(4) {
        return ("run of any elements", elements);
    }
    elements.retain(|&element| is_good(element));
    if random.one_in(3) {
        return ("run, all good", elements);
    }
    elements.insert(random.below(elements.len() as u64 + 1) as usize, draw(random, unit).1);
    ("run with one that may be refused", elements)
}

/// As much room as is needed, or more, or too little.
fn room(random: &mut Random, needed: usize) -> (Option<&'static str>, usize) {
    match random.below(8) {
        0 if needed > 0 => (Some("run, too little room"), random.below(needed as u64) as usize),
        1 | 2 => (None, needed + 1 + random.below(40) as usize),
        _ => (None, needed),
    }
}

fn every_reading(arrays: &mut Arrays<u8, i64>) {
    for (identifier, Datetime64Type { order, unit }) in types() {
        let identifier = &identifier[..];
        for (kind, text) in near(identifier) {
            arrays.compare(kind, Input { identifier: &text, source: &[0; RECORD], room: 1 });
        }
        for (length, room) in (0..=40).flat_map(|length| (0..=6).map(move |room| (length, room))) {
            for number in [0, i64::MIN] {
                let source = &records(order, &[number; 5])[..length];
                arrays.compare("every length and room", Input { identifier, source, room });
            }
        }
        for number in edges(unit) {
            arrays.compare("edges", Input { identifier, source: &order.record(number), room: 1 });
        }
        let refused = if matches!(unit, Unit::Decimals(_)) { 1 } else { i64::MAX };
        for numbers in fours(&[0, i64::MIN, refused]) {
            arrays.compare("refusals in every order", Input { identifier, source: &records(order, &numbers), room: 4 });
        }
    }
}

fn any_reading(arrays: &mut Arrays<u8, i64>) {
    let random = &mut arrays.run.random;
    let (identifier, Datetime64Type { order, unit }) = any_type(random);
    let (damage, identifier) = damaged(random, identifier);
    let (kind, numbers) = drawn(random, unit, number, |number| read_number(unit, number).is_ok());
    let (short, room) = room(random, numbers.len());
    let mut source = records(order, &numbers);
    let cut = random.one_in(20).then_some("run, its last record cut");
    source.truncate(source.len().saturating_sub(cut.map_or(0, |_| random.between(1, 7) as usize)));
    let kind = damage.or(cut).or(short).unwrap_or(kind);
    arrays.compare(kind, Input { identifier: &identifier, source: &source, room });
}

pub fn read_datetime64(run: &mut Run) {
    let mut arrays = Arrays::of(run, archive::read_datetime64, boundary::read_datetime64, |bits| bits as i64);
    every_reading(&mut arrays);
    for _ in 0..arrays.run.count(200_000, 5_000_000) {
        let (identifier, of) = any_type(&mut arrays.run.random);
        let (kind, number) = number(&mut arrays.run.random, of.unit);
        arrays.compare(kind, Input { identifier: &identifier, source: &of.order.record(number), room: 1 });
    }
    for _ in 0..arrays.run.count(10_000, 200_000) {
        any_reading(&mut arrays);
    }
    for name in [&b"<M8[s]"[..], b""] {
        let second = boundary::read_datetime64(name, &[], &mut []);
        let empty = unsafe { raw::uppinalo_read_datetime64(name.as_ptr(), name.len(), null(), 0, null_mut(), 0) };
        run.judge("empty, null pointers", second.number, &name.escape_ascii(), empty, second);
    }
}

fn every_writing(arrays: &mut Arrays<i64, u8>) {
    let last = instants::last(PROLEPTIC_GREGORIAN);
    for (identifier, Datetime64Type { unit, .. }) in types() {
        let identifier = &identifier[..];
        for (kind, text) in near(identifier) {
            arrays.compare(kind, Input { identifier: &text, source: &[0], room: RECORD });
        }
        for (length, room) in (0..=5).flat_map(|length| (0..=44).map(move |room| (length, room))) {
            for instant in [0, i64::MAX] {
                arrays.compare("every length and room", Input { identifier, source: &vec![instant; length], room });
            }
        }
        for instant in edges(unit).into_iter().filter_map(|number| read_number(unit, number).ok()) {
            for by in [-1, 0, 1] {
                arrays.compare("edges", Input { identifier, source: &[instant + by], room: RECORD });
            }
        }
        for instants in fours(&[0, i64::MIN, last]) {
            arrays.compare("refusals in every order", Input { identifier, source: &instants, room: 4 * RECORD });
        }
    }
}

fn any_writing(arrays: &mut Arrays<i64, u8>) {
    let random = &mut arrays.run.random;
    let (identifier, Datetime64Type { unit, .. }) = any_type(random);
    let (damage, identifier) = damaged(random, identifier);
    let (kind, source) = drawn(random, unit, instant, |instant| write_instant(unit, instant).is_ok());
    let (short, room) = room(random, RECORD * source.len());
    let kind = damage.or(short).unwrap_or(kind);
    arrays.compare(kind, Input { identifier: &identifier, source: &source, room });
}

/// Records that are read, and written again from their instants.
fn written_again(arrays: &mut Arrays<i64, u8>) {
    let random = &mut arrays.run.random;
    let (identifier, Datetime64Type { order, unit }) = any_type(random);
    let numbers: Vec<i64> = (0..random.below(20)).map(|_| number(random, unit).1).collect();
    let read = |number: &i64| read_number(unit, *number).ok().map(|instant| (*number, instant));
    let (numbers, source): (Vec<i64>, Vec<i64>) = numbers.iter().filter_map(read).unzip();
    let room = RECORD * source.len() + random.below(9) as usize;
    let kind = "read from records";
    let written = arrays.compare(kind, Input { identifier: &identifier, source: &source, room });
    let is_same = written.starts_with(&records(order, &numbers));
    arrays.run.expect(kind, &(identifier, numbers), is_same, "the records that were read are not written again");
}

pub fn write_datetime64(run: &mut Run) {
    let mut arrays = Arrays::of(run, archive::write_datetime64, boundary::write_datetime64, |bits| bits as u8);
    every_writing(&mut arrays);
    for _ in 0..arrays.run.count(200_000, 4_000_000) {
        let (identifier, of) = any_type(&mut arrays.run.random);
        let (kind, instant) = instant(&mut arrays.run.random, of.unit);
        arrays.compare(kind, Input { identifier: &identifier, source: &[instant], room: RECORD });
    }
    for _ in 0..arrays.run.count(5_000, 100_000) {
        any_writing(&mut arrays);
        written_again(&mut arrays);
    }
    for name in [&b">M8[Y]"[..], b""] {
        let second = boundary::write_datetime64(name, &[], &mut []);
        let empty = unsafe { raw::uppinalo_write_datetime64(name.as_ptr(), name.len(), null(), 0, null_mut(), 0) };
        run.judge("empty, null pointers", second.number, &name.escape_ascii(), empty, second);
    }
}
