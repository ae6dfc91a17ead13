//! The listing program: lines in, a line out for each, through a buffer on either side.

use super::wholes::Start;
use super::{clock, doubles, iso, period, units};
use answers::{Axis, CUTOVER_1582, Reading};
use std::io::{BufRead, Result, Write};

enum Offset {
    Whole(i64),
    Double(f64),
}

fn whole(text: &[u8]) -> Option<i64> {
    let (sign, digits) = text.strip_prefix(b"-").map_or((1, text), |digits| (-1, digits));
    if digits.is_empty() || digits.len() > 19 {
        return None;
    }
    digits.iter().try_fold(0i64, |number, &digit| {
        let digit = digit.is_ascii_digit().then_some(sign * (digit - b'0') as i64)?;
        number.checked_mul(10)?.checked_add(digit)
    })
}

fn hex_digit(byte: u8) -> Option<u64> {
    match byte {
        b'0'..=b'9' => Some((byte - b'0') as u64),
        b'a'..=b'f' => Some((byte - b'a') as u64 + 10),
        _ => None,
    }
}

fn offset(text: &[u8]) -> Option<Offset> {
    match text {
        [b'x', digits @ ..] if digits.len() == 16 => {
            let bits = digits.iter().try_fold(0, |bits, &digit| Some(bits << 4 | hex_digit(digit)?))?;
            Some(Offset::Double(f64::from_bits(bits)))
        }
        _ => whole(text).map(Offset::Whole),
    }
}

fn read(line: &[u8]) -> std::result::Result<(Axis, Reading), u32> {
    if line.len() > 255 {
        return Err(1);
    }
    let mut parts = line.split(|&byte| byte == b'|');
    let (Some(name), Some(text), Some(last), None) = (parts.next(), parts.next(), parts.next(), parts.next()) else {
        return Err(3);
    };
    let offset = offset(last).ok_or(3u32)?;
    let axis = units::read(name, CUTOVER_1582, text)?;
    let start = Start::of(axis);
    let reading = match offset {
        Offset::Whole(n) => start.read(n),
        Offset::Double(x) => doubles::read(&start, x),
    };
    if reading.number == 0 { Ok((axis, reading)) } else { Err(reading.number) }
}

fn answer(line: &[u8], output: &mut impl Write) -> Result<()> {
    let (axis, reading) = match read(line) {
        Ok(read) => read,
        Err(number) => return writeln!(output, "refused {number}"),
    };
    let fields = clock::fields(period::calendar(axis), reading.instant);
    if fields.year < 0 {
        output.write_all(b"-")?;
    }
    output.write_all(&iso::text_of(fields))?;
    output.write_all(if reading.exact == 1 { b"\n" } else { b" rounded\n" })
}

/// All lines of an input.
pub fn listing(mut input: impl BufRead, output: &mut impl Write) -> Result<()> {
    let mut line = Vec::new();
    while input.read_until(b'\n', &mut line)? > 0 {
        answer(line.strip_suffix(b"\n").unwrap_or(&line), output)?;
        line.clear();
    }
    output.flush()
}
