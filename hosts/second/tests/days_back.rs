//! How far a day of the month is stepped back: by months and by years, at the ends of February, in October 1582, and where it is 0.

use answers::{Axis, CUTOVER_1582, Reading};
use second::boundary::*;
use second::calendar::{CALENDARS, Calendar, Calendar::*, STANDARD};
use second::iso::iso_text;

const NAMES: [&str; 6] = ["standard", "proleptic_gregorian", "julian", "noleap", "all_leap", "360_day"];
const OTHERS: [Calendar; 5] = [ProlepticGregorian, Julian, Noleap, AllLeap, Day360];

fn axis(calendar: Calendar, units: &str) -> Axis {
    let answer = read_units(NAMES[calendar.code() as usize].as_bytes(), CUTOVER_1582, units.as_bytes());
    assert_eq!(answer.number, 0, "{units}");
    answer.axis
}

/// A step from one date to another, with so many days back; as a whole double too.
#[track_caller]
fn step(calendar: Calendar, units: &str, offset: i64, date: &str, days_back: u32) {
    let axis = axis(calendar, units);
    let reading = read_whole(axis, offset);
    assert_eq!((reading.number, reading.exact), (0, 1), "{calendar:?} {units}");
    let text = iso_text(calendar, reading.instant).unwrap();
    let (given, _) = text.split_once('T').unwrap();
    assert_eq!((given, reading.days_back), (date, days_back), "{calendar:?} {units} {offset}");
    assert_eq!(read_double(axis, offset as f64), reading, "{calendar:?} {units} {offset}");
}

/// The last day of February in a year of each calendar.
const FEBRUARIES: [(Calendar, &str, u32); 17] = [
    (STANDARD, "2000", 29),
    (STANDARD, "1900", 28),
    (STANDARD, "1500", 29),
    (STANDARD, "-0001", 29),
    (STANDARD, "-0004", 28),
    (ProlepticGregorian, "2000", 29),
    (ProlepticGregorian, "1900", 28),
    (ProlepticGregorian, "1500", 28),
    (ProlepticGregorian, "0000", 29),
    (ProlepticGregorian, "-0001", 28),
    (Julian, "1900", 29),
    (Julian, "1901", 28),
    (Julian, "-0001", 29),
    (Noleap, "2000", 28),
    (AllLeap, "1901", 29),
    (Day360, "2000", 30),
    (Day360, "1901", 30),
];

#[test]
fn a_month_from_the_end_of_january_and_back_from_that_of_march() {
    for (calendar, year, last) in FEBRUARIES {
        let days = if calendar == Day360 { 27..=30 } else { 27..=31 };
        for day in days {
            let (given, days_back) = if day > last { (last, day - last) } else { (day, 0) };
            let date = format!("{year}-02-{given}");
            step(calendar, &format!("calendar months since {year}-01-{day}"), 1, &date, days_back);
            step(calendar, &format!("calendar months since {year}-03-{day}"), -1, &date, days_back);
            step(calendar, &format!("calendar months since {year}-01-{day}"), 0, &format!("{year}-01-{day}"), 0);
        }
    }
}

/// Every month that lacks the day 31, and those that have it.
#[test]
fn months_of_a_year() {
    for (offset, last) in (1..).zip([28, 31, 30, 31, 30, 31, 31, 30, 31, 30, 31]) {
        let date = format!("1930-{:02}-{last}", offset + 1);
        for calendar in [STANDARD, ProlepticGregorian, Julian, Noleap] {
            step(calendar, "calendar months since 1930-01-31", offset, &date, 31 - last);
            step(calendar, "calendar months since 1931-12-31", offset - 23, &date, 31 - last);
        }
        step(Day360, "calendar months since 1930-01-30", offset, &format!("1930-{:02}-30", offset + 1), 0);
    }
}

#[test]
fn years_from_29_february() {
    for (calendar, year, offset, date, days_back) in [
        (STANDARD, "2000", 1, "2001-02-28", 1),
        (STANDARD, "2000", 4, "2004-02-29", 0),
        (STANDARD, "2000", -100, "1900-02-28", 1),
        (STANDARD, "1500", 100, "1600-02-29", 0),
        (STANDARD, "-5", 4, "-0001-02-29", 0),
        (STANDARD, "-5", 5, "0001-02-28", 1),
        (STANDARD, "4", -4, "-0001-02-29", 0),
        (STANDARD, "4", -5, "-0002-02-28", 1),
        (ProlepticGregorian, "4", -4, "0000-02-29", 0),
        (ProlepticGregorian, "4", -5, "-0001-02-28", 1),
        (Julian, "1900", 100, "2000-02-29", 0),
        (Julian, "1900", -1, "1899-02-28", 1),
        (AllLeap, "1901", 1, "1902-02-29", 0),
        (Day360, "1901", 1, "1902-02-29", 0),
    ] {
        step(calendar, &format!("calendar years since {year}-02-29"), offset, date, days_back);
    }
    step(Day360, "calendar years since 1901-02-30", 1, "1902-02-30", 0);
    for calendar in CALENDARS {
        step(calendar, "calendar years since 1901-01-30", 1, "1902-01-30", 0);
    }
}

#[test]
fn october_1582() {
    let steps =
        [("months", "1582-09", 1), ("months", "1582-11", -1), ("years", "1581-10", 1), ("years", "1583-10", -1)];
    for (period, month, offset) in steps {
        for day in 1..=30 {
            let units = format!("calendar {period} since {month}-{day}");
            let (given, days_back) = if (5..15).contains(&day) { (4, day - 4) } else { (day, 0) };
            step(STANDARD, &units, offset, &format!("1582-10-{given:02}"), days_back);
            for calendar in OTHERS {
                step(calendar, &units, offset, &format!("1582-10-{day:02}"), 0);
            }
        }
    }
    step(STANDARD, "calendar months since 1582-08-31", 2, "1582-10-31", 0);
    step(STANDARD, "calendar months since 1582-10-31", 1, "1582-11-30", 1);
    step(STANDARD, "calendar years since 1581-10-14", 1, "1582-10-04", 10);
    step(STANDARD, "calendar years since 1581-10-14", 2, "1583-10-14", 0);
    step(STANDARD, "calendar months since -9999-01-14", 138_969, "1582-10-04", 10);
}

#[test]
fn ends_of_the_range() {
    for calendar in [STANDARD, ProlepticGregorian, Julian, Noleap] {
        step(calendar, "calendar months since 9999-12-31", -1, "9999-11-30", 1);
        step(calendar, "calendar months since 9999-10-31", 1, "9999-11-30", 1);
        step(calendar, "calendar months since 9999-12-31", -10, "9999-02-28", 3);
        step(calendar, "calendar months since -9999-01-31", 3, "-9999-04-30", 1);
    }
    step(AllLeap, "calendar months since -9999-01-31", 1, "-9999-02-29", 2);
    step(Day360, "calendar months since 9999-12-30", -10, "9999-02-30", 0);
}

#[test]
fn the_time_of_day_does_not_count() {
    step(STANDARD, "calendar months since 1930-01-31T23:59:59.999999", 1, "1930-02-28", 3);
    step(STANDARD, "calendar months since 1930-03-01 00:30 +01:00", 12, "1931-02-28", 0);
    step(STANDARD, "calendar months since 1930-02-01 00:30 +01:00", 1, "1930-02-28", 3);
}

/// The asked day less the given one, and its bounds, from every day of some years to the months and years around.
#[test]
fn asked_day_less_given_day() {
    let day = |calendar, instant| fields_of(calendar, CUTOVER_1582, instant).fields;
    for calendar in 0..6 {
        let start =
            |year| read_iso(NAMES[calendar as usize].as_bytes(), CUTOVER_1582, format!("{year}").as_bytes()).instant;
        let mut most = [0; 2];
        for reference in (start(1579)..start(1585)).step_by(86_400_000_000) {
            for (period, offset) in (-14..=14).map(|months| (6, months)).chain((-3..=3).map(|years| (7, years))) {
                let reading = read_whole(Axis { calendar, period, mode: 1, reference, ..Axis::default() }, offset);
                let (asked, given) = (day(calendar, reference), day(calendar, reading.instant));
                assert_eq!(asked.day - given.day, reading.days_back);
                let is_cutover = (given.year, given.month) == (1582, 10);
                most[is_cutover as usize] = most[is_cutover as usize].max(reading.days_back);
            }
        }
        let february = [3, 3, 3, 3, 2, 0][calendar as usize];
        assert_eq!(most, [february, if calendar == 0 { 10 } else { 0 }], "{}", NAMES[calendar as usize]);
    }
}

#[test]
fn zero_in_fixed_mode_and_in_shorter_periods() {
    step(STANDARD, "months since 1930-01-31", 1, "1930-03-02", 0);
    step(STANDARD, "months since 1582-09-10", 1, "1582-10-20", 0);
    step(STANDARD, "years since 2000-02-29", 1, "2001-02-28", 0);
    step(STANDARD, "days since 1930-01-31", 28, "1930-02-28", 0);
    for (period, offset) in [("days", 28), ("weeks", 4), ("hours", 672), ("s", 2_419_200), ("msecs", 2_419_200_000)] {
        step(STANDARD, &format!("calendar {period} since 1930-01-31"), offset, "1930-02-28", 0);
    }
    step(STANDARD, "calendar days since 1582-09-14", 20, "1582-10-04", 0);
    for text in ["1930-02-28", "1582-10-04", "2001-02-28T12:00+01:00"] {
        let answer = read_iso(b"", CUTOVER_1582, text.as_bytes());
        assert_eq!((answer.number, answer.exact, answer.days_back), (0, 1, 0));
    }
}

#[test]
fn zero_beside_a_refusal() {
    let refused = |number| Reading { number, ..Default::default() };
    let months = axis(STANDARD, "calendar months since 9999-12-31");
    assert_eq!(read_whole(months, 2), refused(5));
    assert_eq!(read_whole(months, i64::MIN), refused(5));
    assert_eq!(read_double(months, 2.0), refused(5));
    assert_eq!(read_double(months, -0.5), refused(6));
    assert_eq!(read_double(months, f64::NAN), refused(8));
    assert_eq!(read_whole(Axis { reference: i64::MAX, ..months }, -1), refused(5));
    assert_eq!(read_whole(Axis { calendar: 6, ..months }, -1), refused(2));
    assert_eq!(read_whole(Axis { period: 8, ..months }, -1), refused(3));
    for (text, number) in [("1930-02-31", 12), ("1582-10-14", 13), ("1930-01-32", 4), ("1930-01-31Z", 3)] {
        assert_eq!(read_iso(b"", CUTOVER_1582, text.as_bytes()), refused(number));
    }
}
