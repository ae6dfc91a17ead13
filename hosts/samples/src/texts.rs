//! Calendar names, units texts and ISO texts: derived from their grammar, and damaged.

use crate::Random;
use crate::damage::{any_bytes, damaged};
use crate::dates::{date, in_any_case};

const NAMES: [&str; 13] = [
    "",
    "standard",
    "gregorian",
    "proleptic_gregorian",
    "ISO8601",
    "julian",
    "noleap",
    "no_leap",
    "365_day",
    "all_leap",
    "366_day",
    "uniform30day",
    "360_day",
];
const OTHER_NAMES: [&str; 8] = ["utc", "tai", "none", "Standard", "iso8601", "360day", "standard ", "julian\0"];
const PERIODS: [&str; 15] = [
    "millisec", "msec", "second", "sec", "s", "minute", "min", "hour", "hr", "day", "week", "month", "mon", "year",
    "yr",
];

/// One of the listed names, now and then damaged or any other.
pub fn calendar_name(random: &mut Random) -> Vec<u8> {
    let name = random.pick(&NAMES).as_bytes().to_vec();
    match random.below(20) {
        0 => random.pick(&OTHER_NAMES).as_bytes().to_vec(),
        1 => damaged(random, name).1,
        2 => vec![b's'; random.pick(&[20, 128, 129, 300])],
        _ => name,
    }
}

fn spaces(random: &mut Random) -> String {
    let count = if random.one_in(4) { 1 + random.below(5) } else { 1 };
    " ".repeat(count as usize)
}

fn derived_units(random: &mut Random) -> String {
    let calendar = if random.one_in(3) { in_any_case(random, "calendar") + &spaces(random) } else { String::new() };
    let period = random.pick(&PERIODS);
    let plural = if period != "s" && random.one_in(2) { "s" } else { "" };
    let since = spaces(random) + &in_any_case(random, "since") + &spaces(random);
    format!("{calendar}{period}{plural}{since}{}", date(random))
}

/// The text with spaces put in until it has a length.
fn stretched(text: Vec<u8>, length: usize) -> Vec<u8> {
    let more = length.saturating_sub(text.len());
    match text.iter().position(|&byte| byte == b' ') {
        Some(space) => [&text[..space], &vec![b' '; more][..], &text[space..]].concat(),
        None => [text, vec![b'0'; more]].concat(),
    }
}

/// The text as it was derived, or damaged, or another one.
fn chosen(random: &mut Random, derived: Vec<u8>) -> (&'static str, Vec<u8>) {
    match random.below(16) {
        0 => ("any bytes", any_bytes(random)),
        1 => {
            let length = random.pick(&[120, 127, 128, 128, 129, 129, 130, 200, 1000]);
            ("length around 128", stretched(derived, length))
        }
        2 => {
            let once = damaged(random, derived).1;
            ("changed twice", damaged(random, once).1)
        }
        3..=8 => damaged(random, derived),
        _ => ("derived from the grammar", derived),
    }
}

/// A units text and its kind.
pub fn units(random: &mut Random) -> (&'static str, Vec<u8>) {
    let derived = derived_units(random).into_bytes();
    chosen(random, derived)
}

/// A units text of a length, if that is not too short for it.
pub fn units_of_length(random: &mut Random, length: usize) -> Vec<u8> {
    stretched(derived_units(random).into_bytes(), length)
}

/// An ISO text and its kind.
pub fn iso(random: &mut Random) -> (&'static str, Vec<u8>) {
    let derived = date(random).into_bytes();
    chosen(random, derived)
}
