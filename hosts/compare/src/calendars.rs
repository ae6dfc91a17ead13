//! Days, dates and fields: every day and every date, that exists or not, of the years that are taken, and the ends; and those about every
//! cutover.

use crate::axes;
use crate::run::Run;
use answers::{CUTOVER_1582, Date};
use samples::{borders, cutovers, instants};
use second::boundary;
use second::codes::date_numbers;
use uppinalo::boundary as archive;

const EXTREMES: [i64; 6] = [i64::MIN, i64::MIN + 1, i64::MAX - 1, i64::MAX, 0, -1];

fn one_day(run: &mut Run, kind: &'static str, calendar: u32, cutover: Date, day: i64) {
    let second = boundary::date_of_day_number(calendar, cutover, day);
    run.with(calendar, cutover);
    let ours = archive::date_of_day(calendar, cutover, day);
    run.judge(kind, second.number, &(calendar, cutover, day), ours, second);
}

/// Every day number in range and some past it.
fn every_day(run: &mut Run, calendar: u32, cutover: Date) {
    let (first, last) = (instants::first(calendar) / instants::DAY, instants::last(calendar).div_euclid(instants::DAY));
    for day in first..=last {
        one_day(run, "every day in range", calendar, cutover, day);
    }
    for far in 1..1000 {
        one_day(run, "just past the range", calendar, cutover, first - far);
        one_day(run, "just past the range", calendar, cutover, last + far);
    }
}

pub fn date_of_day(run: &mut Run) {
    every_day(run, 0, CUTOVER_1582);
    every_day(run, 0, cutovers::ENGLISH);
    for calendar in 0..6 {
        if calendar > 0 {
            let cutover = cutovers::any(&mut run.random);
            every_day(run, calendar, cutover);
        }
        for _ in 0..run.count(10_000, 1_000_000) {
            let cutover = cutovers::of_calendar(&mut run.random, calendar);
            let day = run.random.bits() as i64 >> run.random.below(64);
            one_day(run, "any 64 bits", calendar, cutover, day);
        }
        for day in EXTREMES {
            one_day(run, "extremes", calendar, CUTOVER_1582, day);
        }
    }
    for cutover in cutovers::triples() {
        days_about(run, cutover);
    }
    for _ in 0..1000 {
        let (calendar, day) = (axes::unknown_code(&mut run.random, 6), run.random.bits() as i64);
        let cutover = cutovers::any(&mut run.random);
        one_day(run, "unknown calendar", calendar, cutover, day);
    }
}

/// The days about a cutover, and one of that of 1582.
fn days_about(run: &mut Run, cutover: Date) {
    if cutovers::allowed_at(cutover).is_none() {
        return one_day(run, "every cutover that is not allowed", 0, cutover, -100_000);
    }
    let day = boundary::day_number_of_date(0, cutover, cutover).day;
    let near = [day - 2, day - 1, day, day + 1, day + run.random.between(-60, 60), -141_428];
    for day in near {
        one_day(run, "days about every cutover", 0, cutover, day);
    }
}

fn one_date(run: &mut Run, kind: &'static str, calendar: u32, cutover: Date, date: Date) {
    let second = boundary::day_number_of_date(calendar, cutover, date);
    run.with(calendar, cutover);
    let ours = archive::day_of_date(calendar, cutover, date);
    run.judge(kind, second.number, &(calendar, cutover, date), ours, second);
}

fn one_year(run: &mut Run, kind: &'static str, calendar: u32, year: i64) {
    let cutover = if calendar == 0 { CUTOVER_1582 } else { cutovers::any(&mut run.random) };
    for date in borders::dates_of_year(year) {
        one_date(run, kind, calendar, cutover, date);
    }
}

pub fn day_of_date(run: &mut Run) {
    let step = run.count(8, 1) as usize;
    for calendar in 0..6 {
        for year in (-9999..=9999).step_by(step).chain(-9..=9).chain(1570..=1600).chain(1890..=2110) {
            one_year(run, "every date of a year", calendar, year);
        }
        for year in [-9999, 9999] {
            one_year(run, "every date of the ends", calendar, year);
        }
        for year in EXTREMES.into_iter().chain([-10_001, -10_000, 10_000, 10_001, 1 << 32, (1 << 32) + 1970]) {
            one_year(run, "extreme years", calendar, year);
        }
        for _ in 0..run.count(10_000, 100_000) {
            let (year, bits) = (run.random.between(-9999, 9999), run.random.bits());
            let [month, day] = [bits as u32, (bits >> 32) as u32];
            let cutover = cutovers::of_calendar(&mut run.random, calendar);
            one_date(run, "any month and day", calendar, cutover, Date { year, month, day });
            one_date(run, "any day", calendar, cutover, Date { year, month: 1 + month % 12, day });
        }
    }
    for cutover in cutovers::triples() {
        dates_at(run, cutover);
    }
    dates_about(run);
    for _ in 0..1000 {
        let calendar = axes::unknown_code(&mut run.random, 6);
        let year = run.random.bits() as i64;
        let cutover = cutovers::any(&mut run.random);
        one_date(run, "unknown calendar", calendar, cutover, Date { year, month: 1, day: 1 });
    }
}

/// The cutover itself, the day kept before it, each dropped date, the day after these, and some date of the months about.
fn dates_at(run: &mut Run, cutover: Date) {
    let Some(found) = cutovers::allowed_at(cutover) else {
        return one_date(run, "every cutover that is not allowed", 0, cutover, cutover);
    };
    let about = cutovers::date_about(&mut run.random, cutover);
    let last = found.dropped().last().map(date_numbers).expect("some date is dropped");
    let next = Date { day: last.day + 1, ..last };
    let dropped = found.dropped().map(date_numbers);
    for date in [cutover, date_numbers(found.last_kept), next, about].into_iter().chain(dropped) {
        one_date(run, "dates about every cutover", 0, cutover, date);
    }
}

/// All dates of the months about many cutovers, and in other calendars.
fn dates_about(run: &mut Run) {
    for _ in 0..run.count(3000, 60_000) {
        let cutover = cutovers::good(&mut run.random);
        let other = 1 + run.random.below(5) as u32;
        for date in cutovers::dates_about(cutover) {
            one_date(run, "dates of the months about a cutover", 0, cutover, date);
            one_date(run, "those in other calendars", other, cutover, date);
        }
    }
}

fn one_instant(run: &mut Run, kind: &'static str, calendar: u32, cutover: Date, instant: i64) {
    let second = boundary::fields_of(calendar, cutover, instant);
    run.with(calendar, cutover);
    let ours = archive::fields_of(calendar, cutover, instant);
    run.judge(kind, second.number, &(calendar, cutover, instant), ours, second);
}

/// The first, the last and some other microsecond of every so many days.
pub fn fields_of(run: &mut Run) {
    let step = run.count(11, 1) as usize * instants::DAY as usize;
    for calendar in 0..6 {
        let (first, last) = (instants::first(calendar), instants::last(calendar));
        for start in (first..last).step_by(step) {
            let cutover = axes::cutover(&mut run.random, calendar);
            one_instant(run, "first microsecond of a day", calendar, cutover, start);
            one_instant(run, "last microsecond of a day", calendar, cutover, start + instants::DAY - 1);
            let within = run.random.between(0, instants::DAY - 1);
            one_instant(run, "microsecond within a day", calendar, cutover, start + within);
        }
        for _ in 0..run.count(50_000, 1_000_000) {
            let cutover = cutovers::of_calendar(&mut run.random, calendar);
            let near = axes::instant(&mut run.random, calendar, cutover);
            one_instant(run, "around dates and the ends", calendar, cutover, near);
            let past = axes::instant_past_range(&mut run.random, calendar);
            one_instant(run, "past the range", calendar, cutover, past);
        }
    }
    for cutover in cutovers::triples() {
        instants_about(run, cutover);
    }
    for _ in 0..1000 {
        let (calendar, instant) = (axes::unknown_code(&mut run.random, 6), run.random.bits() as i64);
        let cutover = cutovers::any(&mut run.random);
        one_instant(run, "unknown calendar", calendar, cutover, instant);
    }
}

/// The first microsecond from the cutover on, and the last before it.
fn instants_about(run: &mut Run, cutover: Date) {
    if cutovers::allowed_at(cutover).is_none() {
        return one_instant(run, "every cutover that is not allowed", 0, cutover, 0);
    }
    let start = boundary::day_number_of_date(0, cutover, cutover).day * instants::DAY;
    for instant in [start - 1, start] {
        one_instant(run, "about every cutover", 0, cutover, instant);
    }
}
