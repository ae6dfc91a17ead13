//! One offset read: whole numbers and doubles.

use crate::axes;
use crate::run::Run;
use answers::{Axis, CUTOVER_1582};
use samples::{Random, calendar_steps, cutovers, doubles, instants, wholes};
use second::boundary;
use second::codes::date_numbers;
use second::cutover::allowed;
use uppinalo::boundary as archive;

/// What the kinds of an axis and of an offset are together.
pub fn joined(axis: &'static str, offset: &'static str) -> &'static str {
    if axis.starts_with("axis") { axis } else { offset }
}

fn one_whole(run: &mut Run, kind: &'static str, axis: Axis, offset: i64) {
    let second = boundary::read_whole(axis, offset);
    run.on(axis, 1);
    run.stepped_back(second.days_back);
    run.judge(kind, second.number, &(axis, offset), archive::read_whole(axis, offset), second);
}

pub fn read_whole(run: &mut Run) {
    for _ in 0..run.count(1_000_000, 20_000_000) {
        let (axis_kind, axis) = axes::axis(&mut run.random);
        let (kind, offset) = wholes::offset(&mut run.random, axis);
        one_whole(run, joined(axis_kind, kind), axis, offset);
    }
    from_every_day(run, one_whole);
    about_cutovers(run, one_whole);
}

/// Calendar months and years from every day of the years at the borders, and in the long comparison of others.
fn from_every_day(run: &mut Run, one: impl Fn(&mut Run, &'static str, Axis, i64)) {
    let others = run.count(0, 200) as usize;
    for calendar in 0..6 {
        for year in calendar_steps::YEARS.into_iter().chain((-9950..9999).step_by(99).take(others)) {
            let time = run.random.between(0, instants::DAY - 1);
            for (axis, offset) in calendar_steps::from_days_of_year(calendar, CUTOVER_1582, year, time) {
                one(run, "calendar steps from every day of a year", axis, offset);
            }
        }
    }
}

/// Calendar months and years from every day of the years about a cutover, and to the dropped dates of every one.
fn about_cutovers(run: &mut Run, one: impl Fn(&mut Run, &'static str, Axis, i64)) {
    for turn in 0..run.count(30, 1000) {
        let cutover = cutovers::good(&mut run.random);
        let (year, time) = (cutover.year + turn as i64 % 3 - 1, run.random.between(0, instants::DAY - 1));
        for (axis, offset) in calendar_steps::from_days_of_year(0, cutover, year, time) {
            one(run, "calendar steps about a cutover", axis, offset);
        }
    }
    for cutover in allowed() {
        for day in [31, cutover.dropped().last().expect("some date is dropped").day, 1 + run.random.below(31) as u32] {
            let (axis, offset) = calendar_steps::to_dropped_dates(date_numbers(cutover.first), day);
            one(run, "months to the dropped dates of each", axis, offset);
        }
    }
}

fn one_double(run: &mut Run, kind: &'static str, axis: Axis, x: f64) {
    let second = boundary::read_double(axis, x);
    run.on(axis, 1);
    run.stepped_back(second.days_back);
    let input = (axis, x, format_args!("{:#018x}", x.to_bits()));
    run.judge(kind, second.number, &input, archive::read_double(axis, x), second);
}

pub fn read_double(run: &mut Run) {
    for _ in 0..run.count(1_000_000, 10_000_000) {
        let (axis_kind, axis) = axes::axis(&mut run.random);
        let (kind, x) = doubles::double(&mut run.random, axis);
        one_double(run, joined(axis_kind, kind), axis, x);
    }
    from_every_day(run, |run, kind, axis, offset| one_double(run, kind, axis, offset as f64));
    about_cutovers(run, |run, kind, axis, offset| one_double(run, kind, axis, offset as f64));
    for axis in every_axis(&mut run.random) {
        for x in doubles::EDGES {
            one_double(run, "edges, on every axis", axis, x);
            one_double(run, "edges, on every axis", axis, -x);
        }
    }
}

/// An axis of each calendar, period and mode.
pub fn every_axis(random: &mut Random) -> Vec<Axis> {
    let one = |codes: u32| {
        let (calendar, period, mode) = (codes / 16, codes / 2 % 8, codes % 2);
        Axis { period, mode, ..axes::good_axis(random, calendar) }
    };
    (0..96).map(one).collect()
}
