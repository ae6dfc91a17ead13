//! Cutovers, allowed in `standard` and not, and the dates about them: the month of the cutover and those beside it, with days that no month
//! has, and the last days of February where one calendar has a leap year and the other has none.

use crate::Random;
use answers::{CUTOVER_1582, Date};
use second::codes::date_numbers;
use second::cutover::{Cutover, allowed};

const fn date(year: i64, month: u32, day: u32) -> Date {
    Date { year, month, day }
}

pub const ENGLISH: Date = date(1752, 9, 14);

/// The first and the last, those of history, firsts of months, the least day of a month that leaves its first, and those about the 29th of
/// February that only the Julian calendar has.
const GOOD: [Date; 24] = [
    CUTOVER_1582,
    date(1582, 10, 16),
    date(1582, 11, 1),
    date(1582, 12, 20),
    date(1584, 3, 1),
    date(1700, 2, 28),
    date(1700, 3, 1),
    date(1700, 3, 13),
    date(1700, 12, 13),
    ENGLISH,
    date(1752, 9, 13),
    date(1752, 9, 30),
    date(1752, 10, 1),
    date(1753, 1, 1),
    date(1753, 3, 1),
    date(1800, 2, 28),
    date(1800, 3, 1),
    date(1800, 3, 14),
    date(1872, 12, 31),
    date(1900, 2, 28),
    date(1900, 3, 1),
    date(1900, 3, 15),
    date(1923, 3, 1),
    date(1923, 12, 31),
];

/// Before and after all that are allowed, no Gregorian dates, dropped dates in two months or with a first day, and years past 64 bits but
/// for some.
const BAD: [Date; 30] = [
    date(1582, 10, 14),
    date(1582, 10, 5),
    date(1582, 10, 1),
    date(1581, 12, 31),
    date(1582, 11, 11),
    date(1924, 1, 1),
    date(1924, 1, 15),
    date(1970, 1, 1),
    date(1700, 2, 29),
    date(1800, 2, 29),
    date(1900, 2, 29),
    date(1752, 9, 31),
    date(1752, 0, 14),
    date(1752, 13, 14),
    date(1752, 9, 0),
    date(1752, 9, 32),
    date(1752, 9, 2),
    date(1752, 9, 12),
    date(1700, 3, 12),
    date(1800, 3, 13),
    date(1900, 3, 14),
    date(1918, 2, 14),
    date(0, 0, 0),
    date(-1752, 9, 14),
    date(i64::MIN, 10, 15),
    date(i64::MAX, 10, 15),
    date(1582 + (1 << 32), 10, 15),
    date(1752, 9 + (1 << 8), 14),
    date(1752, 9, 14 + (1 << 16)),
    date(1752, u32::MAX, u32::MAX),
];

/// All months 0 to 13 and days 0 to 32 of the years from that of the first cutover to that after the last.
pub fn triples() -> impl Iterator<Item = Date> {
    (1582..=1924).flat_map(crate::borders::dates_of_year)
}

/// One that is allowed: of the borders, or any.
pub fn good(random: &mut Random) -> Date {
    if random.one_in(4) { random.pick(&GOOD) } else { date_numbers(random.pick(allowed()).first) }
}

/// One that is not allowed, and most often near one that is.
pub fn bad(random: &mut Random) -> Date {
    let near = Date { day: 2 + random.below(9) as u32, ..good(random) };
    match random.below(4) {
        0 => near,
        1 => date(random.bits() as i64 >> random.below(64), random.below(15) as u32, random.bits() as u32 | 1 << 31),
        _ => random.pick(&BAD),
    }
}

/// A date for the cutover of a calendar other than `standard`.
pub fn any(random: &mut Random) -> Date {
    if random.one_in(2) { bad(random) } else { good(random) }
}

/// A cutover for a calendar by its code: most often one that is allowed, and of these the half that of 1582.
pub fn of_calendar(random: &mut Random, calendar: u32) -> Date {
    match random.below(8) {
        _ if calendar != 0 => any(random),
        0 => bad(random),
        1..=4 => CUTOVER_1582,
        _ => good(random),
    }
}

/// A month so many after another.
fn month_after(year: i64, month: u32, steps: i64) -> (i64, u32) {
    let months = 12 * year + month as i64 - 1 + steps;
    (months.div_euclid(12), months.rem_euclid(12) as u32 + 1)
}

/// Days 0 to 32 of the months from the one before a cutover's to the one after, and the last of February in some years.
pub fn dates_about(cutover: Date) -> impl Iterator<Item = Date> {
    let days = (-1..=1).flat_map(move |steps| {
        let (year, month) = month_after(cutover.year, cutover.month, steps);
        (0..33).map(move |day| date(year, month, day))
    });
    let february = [1600, 1700, 1800, 1900].into_iter().flat_map(|year| (28..31).map(move |day| date(year, 2, day)));
    days.chain(february)
}

/// One of those, or of the month of 1582's cutover.
pub fn date_about(random: &mut Random, cutover: Date) -> Date {
    let day = random.below(33) as u32;
    match random.below(8) {
        _ if cutover.month > 12 || !(1500..2000).contains(&cutover.year) => date(1582, 10, day),
        0 => date(1582, 10, day),
        1 => date(random.pick(&[1600, 1700, 1800, 1900]), 2, 28 + random.below(3) as u32),
        2..=4 => date(cutover.year, cutover.month, day),
        _ => {
            let (year, month) = month_after(cutover.year, cutover.month, random.between(-1, 1));
            date(year, month, day)
        }
    }
}

/// The cutover of a date, where that is allowed.
pub fn allowed_at(date: Date) -> Option<Cutover> {
    Cutover::of_date(second::codes::date_of_numbers(date)).ok()
}
