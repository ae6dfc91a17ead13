//! The units text (document 01, "The units text").

use crate::axis::{Axis, Mode, Period};
use crate::calendar::{Calendar, Date, calendar_named};
use crate::date_text::{WrittenDate, date};
use crate::refusal::Refusal;
use crate::ways::{Ways, complete, either, map, maybe, spaces, then, word, word_in_any_case};

pub const MOST_BYTES: usize = 128;

const PERIOD_WORDS: [(&[u8], Period); 15] = [
    (b"millisec", Period::Millisecond),
    (b"msec", Period::Millisecond),
    (b"second", Period::Second),
    (b"sec", Period::Second),
    (b"s", Period::Second),
    (b"minute", Period::Minute),
    (b"min", Period::Minute),
    (b"hour", Period::Hour),
    (b"hr", Period::Hour),
    (b"day", Period::Day),
    (b"week", Period::Week),
    (b"month", Period::Month),
    (b"mon", Period::Month),
    (b"year", Period::Year),
    (b"yr", Period::Year),
];

#[derive(Clone, PartialEq, Eq, Debug)]
pub struct WrittenUnits {
    mode: Mode,
    period: Period,
    pub date: WrittenDate,
}

/// A period word or its plural; `s` has no plural.
fn period(text: &[u8]) -> Ways<'_, Period> {
    let one = |&(name, period): &(&[u8], Period)| {
        let singular = word(text, name);
        let plural = if name == b"s" { vec![] } else { map(then(singular.clone(), |rest| word(rest, b"s")), |_| ()) };
        map(either(singular, plural), move |()| period)
    };
    PERIOD_WORDS.iter().flat_map(one).collect()
}

fn calendar_word(text: &[u8]) -> Ways<'_, ()> {
    map(then(word_in_any_case(text, b"calendar"), spaces), |_| ())
}

fn units(text: &[u8]) -> Ways<'_, WrittenUnits> {
    let named = then(maybe(text, calendar_word), period);
    let since = then(then(then(named, spaces), |rest| word_in_any_case(rest, b"since")), spaces);
    map(then(since, date), |(((((calendar, period), ()), ()), ()), date)| WrittenUnits {
        mode: if calendar.is_some() { Mode::Calendar } else { Mode::Fixed },
        period,
        date,
    })
}

/// Every meaning that the grammar gives a text: none where it does not follow the grammar.
pub fn meanings(text: &[u8]) -> Vec<WrittenUnits> {
    complete(units(text))
}

/// What a text must pass before its grammar is asked.
pub fn opened(calendar_name: &[u8], cutover: Date, text: &[u8]) -> Result<Calendar, Refusal> {
    if text.len() > MOST_BYTES {
        return Err(Refusal::TextTooLong);
    }
    calendar_named(calendar_name).ok_or(Refusal::UnknownCalendar)?.with_cutover(cutover)
}

pub fn read_units(calendar_name: &[u8], cutover: Date, text: &[u8]) -> Result<Axis, Refusal> {
    let calendar = opened(calendar_name, cutover, text)?;
    let WrittenUnits { mode, period, date } = meanings(text).pop().ok_or(Refusal::IllFormed)?;
    Ok(Axis { calendar, period, mode, reference: date.instant(calendar)?, cutover })
}
