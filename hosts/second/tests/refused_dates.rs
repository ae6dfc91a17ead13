//! A mistyped date told from a missing and from a dropped one: the last good and the first bad of every field in each calendar, and the
//! order of several faults, by every call that is given a date.

use answers::{Axis, CUTOVER_1582, Date, Fields};
use second::boundary::*;
use second::calendar::Calendar::{self, *};
use second::calendar::{CALENDARS, STANDARD, calendar_named};
use second::listing::answer;

const IMPOSSIBLE: u32 = 4;
const MISSING: u32 = 12;
const DROPPED: u32 = 13;

fn name(calendar: Calendar) -> &'static str {
    let names = ["standard", "proleptic_gregorian", "julian", "noleap", "all_leap", "360_day"];
    assert_eq!(calendar_named(names[calendar.code() as usize].as_bytes()), Some(calendar));
    names[calendar.code() as usize]
}

/// That a written date has this answer as an ISO text, in a units text at once and in fragments, and in a line of the listing.
#[track_caller]
fn text(number: u32, calendar: Calendar, date: &str) {
    let (name, units) = (name(calendar), format!("s since {date}"));
    assert_eq!(read_iso(name.as_bytes(), CUTOVER_1582, date.as_bytes()).number, number, "{name} {date}");
    assert_eq!(read_units(name.as_bytes(), CUTOVER_1582, units.as_bytes()).number, number, "{name} {units}");
    let mut state = start_units();
    units.as_bytes().chunks(3).for_each(|fragment| assert_eq!(add_units(&mut state, fragment), 0));
    assert_eq!(end_units(&mut state, name.as_bytes(), CUTOVER_1582).number, number, "{name} {units}");
    let line = answer(format!("{name}|{units}|0").as_bytes());
    assert_eq!(line.strip_prefix("refused "), (number != 0).then(|| number.to_string()).as_deref(), "{name} {units}");
}

/// That fields have this answer, on an axis with an offset for them if they are good.
#[track_caller]
fn fields(number: u32, calendar: Calendar, fields: Fields) {
    let reference = fields.microsecond.into();
    let axis = Axis { calendar: calendar.code(), reference, ..Default::default() };
    assert_eq!(write_fields(axis, fields).number, number, "{calendar:?} {fields:?}");
}

/// The same of a date by every call, at midnight.
#[track_caller]
fn date(number: u32, calendar: Calendar, year: i64, month: u32, day: u32) {
    assert_eq!(
        day_number_of_date(calendar.code(), CUTOVER_1582, Date { year, month, day }).number,
        number,
        "{calendar:?}"
    );
    fields(number, calendar, Fields { year, month, day, ..Default::default() });
    text(number, calendar, &format!("{year}-{month}-{day}"));
}

#[test]
fn borders_of_months_and_days() {
    for calendar in CALENDARS {
        for (number, month) in [(IMPOSSIBLE, 0), (0, 1), (0, 12), (IMPOSSIBLE, 13), (IMPOSSIBLE, 99)] {
            date(number, calendar, 1970, month, 1);
        }
        let last = if calendar == Day360 { MISSING } else { 0 };
        for (number, day) in [(IMPOSSIBLE, 0), (0, 1), (0, 30), (last, 31), (IMPOSSIBLE, 32), (IMPOSSIBLE, 99)] {
            date(number, calendar, 1970, 1, day);
        }
        let far =
            |month, day| day_number_of_date(calendar.code(), CUTOVER_1582, Date { year: 1970, month, day }).number;
        assert_eq!([far(u32::MAX, 1), far(1, u32::MAX), far(257, 1), far(1, 257)], [IMPOSSIBLE; 4]);
    }
}

#[test]
fn borders_of_the_clock() {
    let noon = Fields { year: 1970, month: 1, day: 1, hour: 12, ..Default::default() };
    for calendar in CALENDARS {
        for (number, hour) in [(0, 0), (0, 23), (IMPOSSIBLE, 24), (IMPOSSIBLE, u32::MAX)] {
            fields(number, calendar, Fields { hour, ..noon });
        }
        for (number, part) in [(0, 0), (0, 59), (IMPOSSIBLE, 60), (IMPOSSIBLE, u32::MAX)] {
            fields(number, calendar, Fields { minute: part, ..noon });
            fields(number, calendar, Fields { second: part, ..noon });
        }
        for (number, microsecond) in [(0, 999_999), (IMPOSSIBLE, 1_000_000), (IMPOSSIBLE, u32::MAX)] {
            fields(number, calendar, Fields { microsecond, ..noon });
        }
        for time in ["0", "23", "0:59", "0:0:59", "23:59:59.999999"] {
            text(0, calendar, &format!("1970-01-01T{time}"));
        }
        for time in ["24", "99", "24:00:00", "0:60", "0:99", "0:0:60", "0:0:99", "24:60:60.000001"] {
            text(IMPOSSIBLE, calendar, &format!("1970-01-01T{time}"));
        }
    }
}

#[test]
fn borders_of_zones() {
    for calendar in CALENDARS {
        for zone in ["Z", "+00", "-00:00", "+23", "-23", "+2359", "-23:59", "+00:59"] {
            text(0, calendar, &format!("1970-01-01T12{zone}"));
        }
        for zone in ["+24", "-24", "+2400", "-24:00", "+99", "+0060", "-00:60", "+23:60", "-2399", "+99:99"] {
            text(IMPOSSIBLE, calendar, &format!("1970-01-01T12{zone}"));
        }
    }
}

/// After a month's last day the calendar lacks the days up to 31.
#[test]
fn lengths_of_months() {
    let months = [31, 28, 31, 30, 31, 30, 31, 31, 30, 31, 30, 31];
    let years = [
        (STANDARD, 1900, 28),
        (STANDARD, 2000, 29),
        (STANDARD, 1500, 29),
        (STANDARD, -1, 29),
        (STANDARD, -4, 28),
        (ProlepticGregorian, 1900, 28),
        (ProlepticGregorian, 2000, 29),
        (ProlepticGregorian, 1500, 28),
        (ProlepticGregorian, 0, 29),
        (ProlepticGregorian, -1, 28),
        (ProlepticGregorian, -4, 29),
        (Julian, 1900, 29),
        (Julian, 1901, 28),
        (Julian, -1, 29),
        (Julian, -4, 28),
        (Noleap, 2000, 28),
        (AllLeap, 1901, 29),
        (Day360, 2000, 30),
    ];
    for (calendar, year, february) in years {
        for (month, common) in (1..).zip(months) {
            let last = if month == 2 || calendar == Day360 { february } else { common };
            (1..=last).for_each(|day| date(0, calendar, year, month, day));
            (last + 1..=31).for_each(|day| date(MISSING, calendar, year, month, day));
            date(IMPOSSIBLE, calendar, year, month, 32);
        }
    }
}

#[test]
fn year_0() {
    for calendar in CALENDARS {
        let number = if matches!(calendar, Standard(_) | Julian) { MISSING } else { 0 };
        for (month, day) in [(1, 1), (2, 28), (10, 10), (12, 30)] {
            date(number, calendar, 0, month, day);
        }
        for year in ["0", "-0", "+0", "0000", "-0000"] {
            text(number, calendar, year);
        }
        date(MISSING, calendar, 0, 4, 31);
        for (month, day) in [(0, 1), (13, 1), (1, 0), (1, 32), (13, 32)] {
            date(IMPOSSIBLE, calendar, 0, month, day);
        }
        for year in [-1, 1] {
            date(0, calendar, year, 1, 1);
        }
    }
}

#[test]
fn dropped_days() {
    for calendar in CALENDARS {
        let number = if calendar == STANDARD { DROPPED } else { 0 };
        date(0, calendar, 1582, 10, 4);
        (5..=14).for_each(|day| date(number, calendar, 1582, 10, day));
        date(0, calendar, 1582, 10, 15);
        for day in [5, 14] {
            for (year, month) in [(1582, 9), (1582, 11), (1581, 10), (1583, 10), (-1582, 10)] {
                date(0, calendar, year, month, day);
            }
        }
        date(IMPOSSIBLE, calendar, 1582, 10, 0);
        date(IMPOSSIBLE, calendar, 1582, 10, 32);
        date(MISSING, calendar, 1582, 9, 31);
    }
}

/// A field that is not possible is refused first, wherever it stands.
#[test]
fn impossible_before_missing_and_dropped() {
    let dates = [
        (STANDARD, "0-01-01", MISSING),
        (STANDARD, "1582-10-05", DROPPED),
        (STANDARD, "1582-10-14", DROPPED),
        (ProlepticGregorian, "1900-02-29", MISSING),
        (Julian, "0-12-31", MISSING),
        (Noleap, "2000-02-29", MISSING),
        (AllLeap, "2000-02-30", MISSING),
        (Day360, "2000-01-31", MISSING),
    ];
    for (calendar, start, number) in dates {
        for time in ["", "T00", " 23:59:59.999999", "T23:59:59.999999+23:59", " 00:00 -23:59"] {
            text(number, calendar, &format!("{start}{time}"));
        }
        for time in ["T24", " 00:60", "T00:00:60.5", "T00+24", " 00 -99", "T00+00:60", "T00-2360", " 24:60:60+24:60"] {
            text(IMPOSSIBLE, calendar, &format!("{start}{time}"));
        }
    }
    text(IMPOSSIBLE, STANDARD, "1900-02-30T24:00");
    text(IMPOSSIBLE, STANDARD, "0-13-01");
    text(IMPOSSIBLE, Julian, "0-01-00");
    text(IMPOSSIBLE, STANDARD, "1582-10-00T25");
}

#[test]
fn order_of_texts() {
    assert_eq!(read_iso(b"tai", CUTOVER_1582, format!("1582-10-05{}", " ".repeat(119)).as_bytes()).number, 1);
    assert_eq!(read_iso(b"tai", CUTOVER_1582, b"1582-10-05").number, 2);
    for ill_formed in ["1582-10-05Z", "1900-02-30T24:", "10000-13-32", "1582-10-05T00+24:0", "1582-10-005"] {
        text(3, STANDARD, ill_formed);
    }
    text(5, Day360, "9999-12-30 23:00 -01:00");
    text(MISSING, Day360, "9999-12-31 23:00 -01:00");
    text(IMPOSSIBLE, Day360, "9999-12-31 24:00 -01:00");
    text(IMPOSSIBLE, STANDARD, "9999-12-31 23:00 -24:00");
    text(IMPOSSIBLE, STANDARD, "-9999-01-01 00:00 +23:60");
}

#[test]
fn order_of_fields() {
    let seconds = Axis::default();
    let past = Axis { reference: i64::MAX, ..seconds };
    let dropped = Fields { year: 1582, month: 10, day: 10, ..Default::default() };
    let missing = Fields { year: 1900, month: 2, day: 30, ..Default::default() };
    let inexact = |fields| Fields { microsecond: 1, ..fields };
    let late = |fields| Fields { hour: 24, ..fields };
    assert_eq!(write_fields(Axis { calendar: 6, ..past }, late(dropped)).number, 2);
    assert_eq!(write_fields(Axis { period: 8, ..past }, late(dropped)).number, 3);
    for (fields, number) in [(dropped, DROPPED), (missing, MISSING)] {
        assert_eq!(write_fields(past, late(fields)).number, 5);
        assert_eq!(write_fields(past, fields).number, 5);
        for year in [-10_000, 10_000, i64::MIN, i64::MAX] {
            assert_eq!(write_fields(seconds, Fields { year, ..late(fields) }).number, 5);
            assert_eq!(write_fields(seconds, Fields { year, ..fields }).number, 5);
        }
        assert_eq!(write_fields(seconds, late(inexact(fields))).number, IMPOSSIBLE);
        assert_eq!(write_fields(seconds, inexact(fields)).number, number);
        assert_eq!(write_fields(seconds, fields).number, number);
    }
    assert_eq!(write_fields(seconds, inexact(Fields { day: 4, ..dropped })).number, 6);
}

#[test]
fn order_of_dates() {
    let number =
        |calendar, year, month, day| day_number_of_date(calendar, CUTOVER_1582, Date { year, month, day }).number;
    assert_eq!(number(6, 10_000, 13, 32), 2);
    assert_eq!(number(0, 10_000, 13, 32), 5);
    assert_eq!(number(0, -10_000, 2, 30), 5);
    assert_eq!(number(0, 0, 13, 31), IMPOSSIBLE);
    assert_eq!(number(2, 0, 2, 32), IMPOSSIBLE);
    assert_eq!(number(0, 0, 2, 30), MISSING);
    assert_eq!(number(0, 9999, 2, 29), MISSING);
    assert_eq!(number(0, -9999, 2, 30), MISSING);
}
