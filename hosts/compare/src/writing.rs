//! Offsets written, from instants and from fields.

use crate::axes;
use crate::offsets::joined;
use crate::run::Run;
use answers::{Axis, Date, Fields};
use samples::{Random, borders, calendar_steps, cutovers, instants, wholes};
use second::boundary;
use uppinalo::boundary as archive;

/// An instant that a whole offset reads as, or one near it, or any other.
fn instant(random: &mut Random, axis: Axis) -> (&'static str, i64) {
    let calendar = axis.calendar.min(5);
    let read = boundary::read_whole(axis, wholes::offset(random, axis).1);
    match random.below(8) {
        0 => ("any instant", axes::instant(random, calendar, axis.cutover)),
        1 => ("past the range", axes::instant_past_range(random, calendar)),
        _ if read.number != 0 => ("any instant", axes::instant(random, calendar, axis.cutover)),
        2 => ("a microsecond beside one that is read", read.instant + random.pick(&[-1, 1])),
        3 => ("some days beside one that is read", read.instant + random.between(-3, 3) * instants::DAY),
        _ => ("read from an offset", read.instant),
    }
}

/// An axis of calendar months, and an instant that a step to about the dropped dates of its cutover reads as, or some days beside it.
fn step_about_a_cutover(random: &mut Random) -> (Axis, i64) {
    let (axis, offset) = calendar_steps::about_a_cutover(random);
    let days = random.pick(&[0, 0, 0, -1, 1, 10, -10]);
    (axis, boundary::read_whole(axis, offset).instant + days * instants::DAY)
}

fn one_instant(run: &mut Run, kind: &'static str, axis: Axis, instant: i64) {
    let second = boundary::write_instant(axis, instant);
    run.on(axis, 1);
    run.judge(kind, second.number, &(axis, instant), archive::write_instant(axis, instant), second);
}

pub fn write_instant(run: &mut Run) {
    for _ in 0..run.count(300_000, 14_000_000) {
        let (axis_kind, axis) = axes::axis(&mut run.random);
        let (kind, instant) = instant(&mut run.random, axis);
        one_instant(run, joined(axis_kind, kind), axis, instant);
    }
    for _ in 0..run.count(20_000, 400_000) {
        let (axis, instant) = step_about_a_cutover(&mut run.random);
        one_instant(run, "months to about the dropped dates", axis, instant);
    }
}

/// The fields with one of them changed, most often to what no date has.
fn damaged(random: &mut Random, axis: Axis, fields: Fields) -> (&'static str, Fields) {
    let any = random.bits() as u32;
    match random.below(9) {
        0 => ("month changed", Fields { month: random.pick(&[0, 13, any]), ..fields }),
        1 => ("day changed", Fields { day: random.pick(&[0, 29, 30, 31, 32, any]), ..fields }),
        2 => ("hour changed", Fields { hour: random.pick(&[23, 24, any]), ..fields }),
        3 => ("minute changed", Fields { minute: random.pick(&[59, 60, any]), ..fields }),
        4 => ("second changed", Fields { second: random.pick(&[59, 60, any]), ..fields }),
        5 => ("microsecond changed", Fields { microsecond: random.pick(&[999_999, 1_000_000, any]), ..fields }),
        6 => (
            "year changed",
            Fields { year: random.pick(&[0, -1, 1, 1582, 10_000, -10_000, i64::MIN, i64::MAX]), ..fields },
        ),
        7 => {
            let Date { year, month, day } = cutovers::date_about(random, axis.cutover);
            ("about the cutover", Fields { year, month, day, ..fields })
        }
        _ => {
            let any = random.bits() as i64;
            ("year and month changed", Fields { year: random.pick(&[10_000, -10_000, any]), month: 13, ..fields })
        }
    }
}

fn one_writing(run: &mut Run, kind: &'static str, axis: Axis, fields: Fields) {
    let second = boundary::write_fields(axis, fields);
    run.on(axis, 1);
    run.judge(kind, second.number, &(axis, fields), archive::write_fields(axis, fields), second);
}

pub fn write_fields(run: &mut Run) {
    for _ in 0..run.count(300_000, 14_000_000) {
        let (axis_kind, axis) = axes::axis(&mut run.random);
        let (kind, instant) = instant(&mut run.random, axis);
        let good = boundary::fields_of(axis.calendar.min(5), axis.cutover, instant).fields;
        let (kind, fields) = if run.random.one_in(2) { damaged(&mut run.random, axis, good) } else { (kind, good) };
        one_writing(run, joined(axis_kind, kind), axis, fields);
    }
    for (calendar, date) in borders::dates(run.count(3, 60) as usize) {
        let axis = axes::good_axis(&mut run.random, calendar);
        let fields = borders::fields(&mut run.random, date);
        one_writing(run, "fields at their borders", axis, fields);
    }
    for _ in 0..run.count(100_000, 2_000_000) {
        let axis = axes::good_axis(&mut run.random, 0);
        let date = cutovers::date_about(&mut run.random, axis.cutover);
        let fields = borders::fields(&mut run.random, date);
        one_writing(run, "fields at their borders, near a cutover", axis, fields);
    }
    for _ in 0..run.count(20_000, 400_000) {
        let (axis, instant) = step_about_a_cutover(&mut run.random);
        let fields = boundary::fields_of(axis.calendar, axis.cutover, instant).fields;
        one_writing(run, "months to about the dropped dates", axis, fields);
    }
}
