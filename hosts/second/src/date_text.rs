//! The date rule with time and zone, and the instant that a date names (document 01, "The units text").

use crate::calendar::{Calendar, Date};
use crate::fields::{Fields, UTC, Zone};
use crate::instant::{count_of_fields, instant_of_count};
use crate::refusal::Refusal;
use crate::ways::{Ways, digits, either, map, maybe, number, then, word, word_in_any_case};

/// A date as it is written. Each part stands inside the one that it may follow.
#[derive(Clone, PartialEq, Eq, Debug)]
pub struct WrittenDate {
    is_negative: bool,
    year: u32,
    month: Option<WrittenMonth>,
}

#[derive(Clone, PartialEq, Eq, Debug)]
struct WrittenMonth {
    month: u32,
    day: Option<WrittenDay>,
}

#[derive(Clone, PartialEq, Eq, Debug)]
struct WrittenDay {
    day: u32,
    time: Option<WrittenTime>,
}

#[derive(Clone, Copy, PartialEq, Eq, Debug)]
struct WrittenTime {
    clock: Clock,
    zone: Zone,
}

#[derive(Clone, Copy, PartialEq, Eq, Debug, Default)]
struct Clock {
    hour: u32,
    minute: u32,
    second: u32,
    microsecond: u32,
}

pub fn date(text: &[u8]) -> Ways<'_, WrittenDate> {
    let signed = then(maybe(text, sign), |rest| number(rest, 1, 4));
    map(then(signed, |rest| maybe(rest, month)), |((sign, year), month)| WrittenDate {
        is_negative: sign == Some(b'-'),
        year,
        month,
    })
}

fn sign(text: &[u8]) -> Ways<'_, u8> {
    either(map(word(text, b"+"), |()| b'+'), map(word(text, b"-"), |()| b'-'))
}

fn month(text: &[u8]) -> Ways<'_, WrittenMonth> {
    let ways = then(word(text, b"-"), |rest| number(rest, 1, 2));
    map(then(ways, |rest| maybe(rest, day)), |(((), month), day)| WrittenMonth { month, day })
}

fn day(text: &[u8]) -> Ways<'_, WrittenDay> {
    let ways = then(word(text, b"-"), |rest| number(rest, 1, 2));
    map(then(ways, |rest| maybe(rest, time)), |(((), day), time)| WrittenDay { day, time })
}

fn time(text: &[u8]) -> Ways<'_, WrittenTime> {
    let marked = then(either(word(text, b"T"), word(text, b" ")), hour);
    map(then(marked, |rest| maybe(rest, zone)), |(((), clock), zone)| WrittenTime { clock, zone: zone.unwrap_or(UTC) })
}

fn hour(text: &[u8]) -> Ways<'_, Clock> {
    let ways = then(number(text, 1, 2), |rest| maybe(rest, minute));
    map(ways, |(hour, clock)| Clock { hour, ..clock.unwrap_or_default() })
}

fn minute(text: &[u8]) -> Ways<'_, Clock> {
    let ways = then(word(text, b":"), |rest| number(rest, 1, 2));
    map(then(ways, |rest| maybe(rest, second)), |(((), minute), clock)| Clock { minute, ..clock.unwrap_or_default() })
}

fn second(text: &[u8]) -> Ways<'_, Clock> {
    let ways = then(word(text, b":"), |rest| number(rest, 1, 2));
    map(then(ways, |rest| maybe(rest, fraction)), |(((), second), microsecond)| Clock {
        second,
        microsecond: microsecond.unwrap_or(0),
        ..Clock::default()
    })
}

/// The digits after the point, with zeros added to make six.
fn fraction(text: &[u8]) -> Ways<'_, u32> {
    map(then(word(text, b"."), |rest| digits(rest, 1, 6)), |((), digits)| {
        let six = digits.iter().copied().chain(std::iter::repeat(b'0')).take(6);
        six.fold(0, |n, digit| n * 10 + (digit - b'0') as u32)
    })
}

fn zone(text: &[u8]) -> Ways<'_, Zone> {
    let spaced = maybe(text, |rest| word(rest, b" "));
    map(then(spaced, |rest| either(named_zone(rest), signed_zone(rest))), |(_, zone)| zone)
}

fn named_zone(text: &[u8]) -> Ways<'_, Zone> {
    let names = [&b"Z"[..], b"UTC", b"GMT"];
    let ways = names.iter().flat_map(|name| word_in_any_case(text, name)).collect();
    map(ways, |()| UTC)
}

fn signed_zone(text: &[u8]) -> Ways<'_, Zone> {
    let hours = then(sign(text), |rest| number(rest, 2, 2));
    map(then(hours, |rest| maybe(rest, zone_minutes)), |((sign, hours), minutes)| Zone {
        is_behind: sign == b'-',
        hours,
        minutes: minutes.unwrap_or(0),
    })
}

fn zone_minutes(text: &[u8]) -> Ways<'_, u32> {
    map(then(maybe(text, |rest| word(rest, b":")), |rest| number(rest, 2, 2)), |(_, minutes)| minutes)
}

impl WrittenDate {
    fn year(&self) -> i64 {
        if self.is_negative { -(self.year as i64) } else { self.year as i64 }
    }

    /// The local date and time, and the zone. Month and day default to 1, the time to midnight.
    pub fn fields(&self) -> (Fields, Zone) {
        let month = self.month.clone().unwrap_or(WrittenMonth { month: 1, day: None });
        let day = month.day.unwrap_or(WrittenDay { day: 1, time: None });
        let WrittenTime { clock, zone } = day.time.unwrap_or(WrittenTime { clock: Clock::default(), zone: UTC });
        let date = Date::new(self.year(), month.month, day.day);
        let Clock { hour, minute, second, microsecond } = clock;
        (Fields { date, hour, minute, second, microsecond }, zone)
    }

    /// The instant that the date names.
    pub fn instant(&self, calendar: Calendar) -> Result<i64, Refusal> {
        let (local, zone) = self.fields();
        instant_of_count(calendar, count_of_fields(calendar, local, zone)?)
    }
}
