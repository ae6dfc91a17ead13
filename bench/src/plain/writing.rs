//! Whole offsets written.

use super::{clock, period, wholes};
use answers::{Axis, Fields, OffsetAnswer};

/// The whole quotient of a displacement, where there is one.
fn fixed(axis: Axis, instant: i64) -> Option<i64> {
    let displacement = instant - axis.reference;
    let period = period::microseconds(axis.period);
    (displacement % period == 0).then(|| displacement / period)
}

/// The months between the two, tried by a step from the reference.
fn calendar_step(axis: Axis, instant: i64) -> Option<i64> {
    let calendar = period::calendar(axis);
    let from = clock::fields(calendar, axis.reference);
    let to = wholes::month_count(calendar, clock::fields(calendar, instant));
    if wholes::in_month(calendar, from, to).is_none_or(|(reached, _)| reached != instant) {
        return None;
    }
    let months = to - wholes::month_count(calendar, from);
    match axis.period {
        period::YEAR => (months % 12 == 0).then_some(months / 12),
        _ => Some(months),
    }
}

fn write(axis: Axis, instant: i64) -> OffsetAnswer {
    let offset = if period::is_calendar_step(axis) { calendar_step(axis, instant) } else { fixed(axis, instant) };
    offset.map_or(OffsetAnswer { number: 6, offset: 0 }, |offset| OffsetAnswer { number: 0, offset })
}

#[inline(never)]
pub extern "C" fn write_instant(axis: Axis, instant: i64) -> OffsetAnswer {
    match period::refusal(axis) {
        0 if !clock::is_in_range(axis.calendar, instant) => OffsetAnswer { number: 5, offset: 0 },
        0 => write(axis, instant),
        number => OffsetAnswer { number, offset: 0 },
    }
}

#[inline(never)]
pub extern "C" fn write_fields(axis: Axis, fields: Fields) -> OffsetAnswer {
    match period::refusal(axis) {
        0 if !(-9999..=9999).contains(&fields.year) => OffsetAnswer { number: 5, offset: 0 },
        0 => match clock::refusal(period::calendar(axis), fields) {
            0 => write(axis, clock::instant(period::calendar(axis), fields)),
            number => OffsetAnswer { number, offset: 0 },
        },
        number => OffsetAnswer { number, offset: 0 },
    }
}
