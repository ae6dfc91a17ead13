//! Axes, cutovers and instants for all comparisons.

use answers::{Axis, CUTOVER_1582, Date};
use samples::{Random, cutovers, instants};
use second::boundary;

/// Days that begin or end something: the cutover of 1582, years 0 and 1, leap days, ends of months.
const DATES: [(i64, u32, u32); 16] = [
    (1582, 10, 4),
    (1582, 10, 15),
    (1582, 9, 10),
    (1582, 11, 30),
    (1581, 10, 14),
    (-1, 12, 31),
    (-1, 2, 29),
    (1, 1, 1),
    (0, 2, 29),
    (2000, 2, 29),
    (1900, 2, 28),
    (1930, 1, 31),
    (2023, 2, 30),
    (9999, 12, 31),
    (-9999, 1, 1),
    (1970, 1, 1),
];

/// Near the cutover, or near one of those days.
fn near_a_date(random: &mut Random, calendar: u32, cutover: Date) -> i64 {
    let (year, month, day) = random.pick(&DATES);
    let date = if random.one_in(2) { cutover } else { Date { year, month, day } };
    let start = boundary::day_number_of_date(calendar, cutover, date).day * instants::DAY;
    match random.below(3) {
        0 => start,
        1 => start + random.between(-2, 2),
        _ => start + random.between(-40 * instants::DAY, 40 * instants::DAY),
    }
}

/// An instant of a known calendar, in its range or just past it.
pub fn instant(random: &mut Random, calendar: u32, cutover: Date) -> i64 {
    let (first, last) = (instants::first(calendar), instants::last(calendar));
    match random.below(8) {
        0 => first + random.between(-2, 2),
        1 => last + random.between(-2, 2),
        2 => near_a_date(random, calendar, cutover),
        3 => random.between(first, last) / instants::DAY * instants::DAY,
        4 => random.between(instants::first_of_year(calendar, 1850), instants::first_of_year(calendar, 2101)),
        _ => random.between(first, last),
    }
}

/// An instant in range.
pub fn reference(random: &mut Random, calendar: u32, cutover: Date) -> i64 {
    instant(random, calendar, cutover).clamp(instants::first(calendar), instants::last(calendar))
}

/// An instant that is most often past the range.
pub fn instant_past_range(random: &mut Random, calendar: u32) -> i64 {
    match random.below(4) {
        0 => instants::first(calendar) - 1 - random.below(1000) as i64,
        1 => instants::last(calendar) + 1 + random.below(1000) as i64,
        2 => random.pick(&[i64::MIN, i64::MAX, i64::MIN + 1, i64::MAX - 1]),
        _ => random.bits() as i64,
    }
}

/// A code that none has.
pub fn unknown_code(random: &mut Random, known: u32) -> u32 {
    random.pick(&[known, known + 1, u32::MAX, 1 << 31, 256, 65_536])
}

/// A cutover that a known calendar takes: in `standard` half of the time that of 1582, in others any date.
pub fn cutover(random: &mut Random, calendar: u32) -> Date {
    match calendar {
        0 if random.one_in(2) => CUTOVER_1582,
        0 => cutovers::good(random),
        _ => cutovers::any(random),
    }
}

/// An axis of a known calendar, its reference in range and its cutover allowed.
pub fn good_axis(random: &mut Random, calendar: u32) -> Axis {
    let cutover = cutover(random, calendar);
    let reference = reference(random, calendar, cutover);
    Axis { calendar, period: random.below(8) as u32, mode: random.below(2) as u32, reference, cutover }
}

/// An axis of `standard` with a cutover that is not allowed, and maybe with another fault.
fn axis_with_a_bad_cutover(random: &mut Random) -> Axis {
    let axis = Axis { cutover: cutovers::bad(random), ..good_axis(random, 0) };
    match random.below(6) {
        0 => Axis { calendar: unknown_code(random, 6), ..axis },
        1 => Axis { period: unknown_code(random, 8), ..axis },
        2 => Axis { mode: unknown_code(random, 2), ..axis },
        3 => Axis { reference: instant_past_range(random, 0), ..axis },
        _ => axis,
    }
}

/// An axis and the kind it is of; most are good.
pub fn axis(random: &mut Random) -> (&'static str, Axis) {
    let calendar = random.below(6) as u32;
    let good = good_axis(random, calendar);
    match random.below(60) {
        0 => ("axis with an unknown calendar", Axis { calendar: unknown_code(random, 6), ..good }),
        1 => ("axis with an unknown period", Axis { period: unknown_code(random, 8), ..good }),
        2 => ("axis with an unknown mode", Axis { mode: unknown_code(random, 2), ..good }),
        3 => {
            let (calendar, period) = (unknown_code(random, 6), unknown_code(random, 8));
            let reference = random.bits() as i64;
            ("axis with several faults", Axis { calendar, period, mode: 2, reference, ..good })
        }
        6 => ("axis with a cutover not allowed", axis_with_a_bad_cutover(random)),
        4 | 5 => ("axis past the range", Axis { reference: instant_past_range(random, good.calendar), ..good }),
        _ if good.mode == 1 && good.period >= 6 => ("calendar months and years", good),
        _ if good.mode == 1 => ("calendar mode, shorter periods", good),
        _ => ("fixed", good),
    }
}
