//! The listing program's answers (document 01, "The listing program").

use crate::cutover::OF_1582;
use crate::iso::iso_text;
use crate::reading::{read_double, read_whole};
use crate::refusal::Refusal;
use crate::units_text::read_units;

const MOST_BYTES: usize = 255;

enum Offset {
    Whole(i64),
    Double(f64),
}

/// Decimal digits, at most 19 of them, with or without a minus sign, whose number is an i64.
fn whole(text: &[u8]) -> Option<i64> {
    let digits = text.strip_prefix(b"-").unwrap_or(text);
    if digits.is_empty() || digits.len() > 19 || !digits.iter().all(u8::is_ascii_digit) {
        return None;
    }
    std::str::from_utf8(text).ok()?.parse().ok()
}

/// A double by its bits, in hexadecimal after an `x`.
fn double(text: &[u8]) -> Option<f64> {
    let digits = text.strip_prefix(b"x")?;
    if digits.len() != 16 || !digits.iter().all(|digit| matches!(digit, b'0'..=b'9' | b'a'..=b'f')) {
        return None;
    }
    u64::from_str_radix(std::str::from_utf8(digits).ok()?, 16).ok().map(f64::from_bits)
}

fn offset(text: &[u8]) -> Option<Offset> {
    whole(text).map(Offset::Whole).or_else(|| double(text).map(Offset::Double))
}

/// What a line, without its newline, shows; or why it is refused.
fn shown(line: &[u8]) -> Result<String, Refusal> {
    if line.len() > MOST_BYTES {
        return Err(Refusal::TextTooLong);
    }
    let parts: Vec<&[u8]> = line.split(|&byte| byte == b'|').collect();
    let [calendar, units, last] = parts[..] else {
        return Err(Refusal::IllFormed);
    };
    let offset = offset(last).ok_or(Refusal::IllFormed)?;
    let axis = read_units(calendar, OF_1582.first, units)?;
    let reading = match offset {
        Offset::Whole(offset) => read_whole(axis, offset)?,
        Offset::Double(offset) => read_double(axis, offset)?,
    };
    let mark = if reading.exact { "" } else { " rounded" };
    Ok(iso_text(axis.calendar, reading.instant)? + mark)
}

/// The answer to a line, both without their newlines.
pub fn answer(line: &[u8]) -> String {
    shown(line).unwrap_or_else(|refusal| format!("refused {}", refusal.number()))
}

/// All that the program prints for an input.
pub fn listing(input: &[u8]) -> String {
    let lines = input.split_inclusive(|&byte| byte == b'\n');
    lines.map(|line| answer(line.strip_suffix(b"\n").unwrap_or(line)) + "\n").collect()
}
