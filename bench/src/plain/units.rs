//! Units text read, from the left to the right.

use super::cutover::{self, Calendar};
use super::scanner::Scanner;
use super::{clock, lent};
use answers::{Axis, AxisAnswer, Date, Fields, Reading};

struct Written {
    fields: Fields,
    zone: Option<i64>,
}

fn code(name: &[u8]) -> Option<u32> {
    Some(match name {
        b"" | b"standard" | b"gregorian" => 0,
        b"proleptic_gregorian" | b"ISO8601" => 1,
        b"julian" => 2,
        b"noleap" | b"no_leap" | b"365_day" => 3,
        b"all_leap" | b"366_day" => 4,
        b"uniform30day" | b"360_day" => 5,
        _ => return None,
    })
}

fn period(word: &[u8]) -> Option<u32> {
    Some(match word.strip_suffix(b"s").filter(|word| !word.is_empty() && *word != b"s").unwrap_or(word) {
        b"second" | b"sec" | b"s" => 0,
        b"millisec" | b"msec" => 1,
        b"minute" | b"min" => 2,
        b"hour" | b"hr" => 3,
        b"day" => 4,
        b"week" => 5,
        b"month" | b"mon" => 6,
        b"year" | b"yr" => 7,
        _ => return None,
    })
}

fn period_word(text: &mut Scanner) -> Option<u32> {
    let length = text.rest.iter().take_while(|byte| byte.is_ascii_lowercase()).count();
    let (word, rest) = text.rest.split_at(length);
    text.rest = rest;
    period(word)
}

/// The fraction's digits, with zeros added to make six.
fn fraction(text: &mut Scanner) -> Option<u32> {
    let (number, count) = text.digits(6);
    (count > 0).then(|| number * 10u32.pow(6 - count as u32))
}

fn time(text: &mut Scanner, fields: &mut Fields) -> Option<()> {
    fields.hour = text.number(1, 2)?;
    if text.byte(b':') {
        fields.minute = text.number(1, 2)?;
        if text.byte(b':') {
            fields.second = text.number(1, 2)?;
            if text.byte(b'.') {
                fields.microsecond = fraction(text)?;
            }
        }
    }
    Some(())
}

/// The zone's microseconds ahead of UTC, or that no zone has its hours or minutes.
fn zone(text: &mut Scanner) -> Option<Option<i64>> {
    if text.rest.is_empty() {
        return Some(Some(0));
    }
    text.byte(b' ');
    if text.word_in_any_case(b"Z") || text.word_in_any_case(b"UTC") || text.word_in_any_case(b"GMT") {
        return Some(Some(0));
    }
    let is_behind = text.byte(b'-');
    if !is_behind && !text.byte(b'+') {
        return None;
    }
    let hours = text.number(2, 2)?;
    let has_minutes = text.byte(b':') || !text.rest.is_empty();
    let minutes = if has_minutes { text.number(2, 2)? } else { 0 };
    let ahead = (hours as i64 * 60 + minutes as i64) * 60_000_000;
    Some((hours < 24 && minutes < 60).then_some(if is_behind { -ahead } else { ahead }))
}

fn date(text: &mut Scanner) -> Option<Written> {
    let mut fields = Fields { month: 1, day: 1, ..Default::default() };
    let mut ahead = Some(0);
    let is_negative = text.byte(b'-');
    if !is_negative {
        text.byte(b'+');
    }
    let year = text.number(1, 4)? as i64;
    fields.year = if is_negative { -year } else { year };
    if text.byte(b'-') {
        fields.month = text.number(1, 2)?;
        if text.byte(b'-') {
            fields.day = text.number(1, 2)?;
            if text.byte(b'T') || text.byte(b' ') {
                time(text, &mut fields)?;
                ahead = zone(text)?;
            }
        }
    }
    text.rest.is_empty().then_some(Written { fields, zone: ahead })
}

/// The mode, the period and the date.
fn units(text: &[u8]) -> Option<(u32, u32, Written)> {
    let mut text = Scanner { rest: text };
    let mode = text.word_in_any_case(b"calendar") as u32;
    if mode == 1 {
        text.spaces()?;
    }
    let period = period_word(&mut text)?;
    text.spaces()?;
    if !text.word_in_any_case(b"since") {
        return None;
    }
    text.spaces()?;
    Some((mode, period, date(&mut text)?))
}

/// The calendar of a name with a cutover, in which a text of a length that is taken is read.
fn text_calendar(name: &[u8], cutover: Date, text: &[u8]) -> Result<Calendar, u32> {
    if text.len() > 128 {
        return Err(1);
    }
    cutover::calendar(code(name).ok_or(2u32)?, cutover)
}

/// The instant of a date as it is written.
fn instant(calendar: Calendar, written: Written) -> Result<i64, u32> {
    let zone = written.zone.ok_or(4u32)?;
    let number = clock::refusal(calendar, written.fields);
    if number != 0 {
        return Err(number);
    }
    let instant = clock::instant(calendar, written.fields) - zone;
    if clock::is_in_range(calendar.code, instant) { Ok(instant) } else { Err(5) }
}

/// The axis of a units text, or the number of the refusal.
pub fn read(name: &[u8], cutover: Date, text: &[u8]) -> Result<Axis, u32> {
    let calendar = text_calendar(name, cutover, text)?;
    let (mode, period, written) = units(text).ok_or(3u32)?;
    Ok(Axis { calendar: calendar.code, period, mode, reference: instant(calendar, written)?, cutover })
}

fn read_date(name: &[u8], cutover: Date, text: &[u8]) -> Result<i64, u32> {
    let calendar = text_calendar(name, cutover, text)?;
    instant(calendar, date(&mut Scanner { rest: text }).ok_or(3u32)?)
}

pub fn answer(read: Result<Axis, u32>) -> AxisAnswer {
    match read {
        Ok(axis) => AxisAnswer { number: 0, axis },
        Err(number) => AxisAnswer { number, ..Default::default() },
    }
}

/// # Safety
/// The pointers lend so many bytes each.
#[inline(never)]
pub unsafe extern "C" fn read_units(
    name: *const u8,
    name_len: usize,
    cutover: Date,
    text: *const u8,
    text_len: usize,
) -> AxisAnswer {
    answer(unsafe { read(lent(name, name_len), cutover, lent(text, text_len)) })
}

/// # Safety
/// The pointers lend so many bytes each.
#[inline(never)]
pub unsafe extern "C" fn read_iso(
    name: *const u8,
    name_len: usize,
    cutover: Date,
    text: *const u8,
    text_len: usize,
) -> Reading {
    match unsafe { read_date(lent(name, name_len), cutover, lent(text, text_len)) } {
        Ok(instant) => Reading { instant, exact: 1, ..Default::default() },
        Err(number) => Reading { number, ..Default::default() },
    }
}
