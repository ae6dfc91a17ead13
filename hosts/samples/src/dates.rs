//! Texts that the date rule derives: with few parts or many, short numbers and padded ones. The date need not exist.

use crate::Random;

/// The word, half of the time with some letters in the other case.
pub fn in_any_case(random: &mut Random, word: &str) -> String {
    let changes = if random.one_in(2) { 0 } else { random.bits() };
    let one = |(i, letter): (usize, char)| if changes >> i & 1 == 1 { letter.to_ascii_uppercase() } else { letter };
    word.chars().enumerate().map(one).collect()
}

/// A number with zeros in front up to a width, or with fewer digits.
fn number(random: &mut Random, number: u64, width: usize) -> String {
    if random.one_in(3) { number.to_string() } else { format!("{number:0width$}") }
}

fn year(random: &mut Random) -> String {
    let sign = random.pick(&["", "", "", "+", "-"]);
    let bound = random.pick(&[100, 10_000, 10_000]);
    let year = random.pick_or_below(&[1582, 1970, 2000, 1900, 0, 1, 9999, 4], bound);
    format!("{sign}{}", number(random, year, 4))
}

fn month(random: &mut Random) -> String {
    let month =
        if random.one_in(20) { random.below(15) } else { random.pick(&[1, 2, 2, 3, 4, 5, 6, 7, 8, 9, 10, 10, 11, 12]) };
    number(random, month, 2)
}

fn day(random: &mut Random) -> String {
    let day = random.pick_or_below(&[1, 1, 4, 5, 10, 14, 15, 28, 29, 30, 31], 34);
    number(random, day, 2)
}

/// A number of one or two digits, most often within a bound.
fn at_most(random: &mut Random, bound: u64) -> String {
    let value = if random.one_in(30) { random.below(100) } else { random.below(bound + 1) };
    number(random, value, 2)
}

fn clock(random: &mut Random) -> String {
    let mut text = at_most(random, 23);
    for _ in 0..random.below(3) {
        text += ":";
        text += &at_most(random, 59);
    }
    if text.matches(':').count() == 2 && random.one_in(2) {
        let digits = 1 + random.below(6) as usize;
        text += &format!(".{:0digits$}", random.below(10u64.pow(digits as u32)));
    }
    text
}

fn zone(random: &mut Random) -> String {
    let space = random.pick(&["", "", " "]);
    let (sign, colon) = (random.pick(&["+", "-"]), random.pick(&["", ":"]));
    let hours = random.pick_or_below(&[0, 1, 12, 23, 24], 100);
    let minutes = random.pick_or_below(&[0, 30, 59, 60], 100);
    let zone = match random.below(6) {
        0 => in_any_case(random, "z"),
        1 => in_any_case(random, "utc"),
        2 => in_any_case(random, "gmt"),
        3 => format!("{sign}{hours:02}"),
        _ => format!("{sign}{hours:02}{colon}{minutes:02}"),
    };
    space.to_string() + &zone
}

/// A local time near an end of the range, with a zone that may lead past it.
fn date_at_an_end(random: &mut Random) -> String {
    let day = random.pick(&["9999-12-31", "9999-12-30", "-9999-01-01", "-9999-1-1"]);
    let hour = random.pick(&["00", "23", "12", "0", "1"]);
    let minute = random.pick(&["", ":00", ":59", ":30:59.999999", ":0:0.000001"]);
    format!("{day}{}{hour}{minute}{}", random.pick(&["T", " "]), zone(random))
}

pub fn date(random: &mut Random) -> String {
    if random.one_in(10) {
        return date_at_an_end(random);
    }
    let mut text = year(random);
    let parts = random.pick(&[0, 1, 2, 2, 2, 3, 3, 3, 4, 4, 4, 4]);
    if parts >= 1 {
        text += &format!("-{}", month(random));
    }
    if parts >= 2 {
        text += &format!("-{}", day(random));
    }
    if parts >= 3 {
        text += random.pick(&["T", " "]);
        text += &clock(random);
    }
    if parts >= 4 {
        text += &zone(random);
    }
    text
}
