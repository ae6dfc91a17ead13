//! The cutover of `standard`: which dates are allowed, the days about each of them, the dates that are dropped, and the order of refusals
//! (document 02, CR 8).

use answers::{Axis, AxisAnswer, CUTOVER_1582, Date as Numbers, Fields, Reading};
use second::boundary::*;
use second::calendar::{Calendar, Date};
use second::cutover::{Cutover, OF_1582, allowed};
use second::days::{date_of_day, day_of_date};
use second::next_day::day_after;

const ENGLISH: Numbers = Numbers { year: 1752, month: 9, day: 14 };
const RUSSIAN: Numbers = Numbers { year: 1918, month: 2, day: 14 };
const ZEROS: Numbers = Numbers { year: 0, month: 0, day: 0 };

fn numbers(year: i64, month: u32, day: u32) -> Numbers {
    Numbers { year, month, day }
}

/// The number that each date has for an answer as the cutover of `standard`.
fn number_of(year: i64, month: u32, day: u32) -> u32 {
    date_of_day_number(0, numbers(year, month, day), 0).number
}

#[test]
fn allowed_dates() {
    let triples = (1582..=1924).flat_map(|year| (0..14 * 33).map(move |place| (year, place / 33, place % 33)));
    let taken = triples.filter(|&(year, month, day)| number_of(year, month, day) == 0).count();
    assert_eq!((taken, allowed().len()), (79_227, 79_227));
    assert_eq!(allowed()[0], OF_1582);
    assert_eq!(allowed()[79_226].first, Date::new(1923, 12, 31));
}

/// Of the Gregorian dates of the span these are the firsts of months, and the days from two after the number of dropped days on.
#[test]
fn allowed_days_of_the_month() {
    let mut date = OF_1582.first;
    let mut dropped = OF_1582.dropped().count() as u32;
    while date <= Date::new(1923, 12, 31) {
        let found = Cutover::of_date(date);
        if let Ok(cutover) = found {
            dropped = cutover.dropped().count() as u32;
            assert!((10..=13).contains(&dropped), "{date:?}");
        }
        assert_eq!(found.is_ok(), date.day == 1 || date.day >= dropped + 2, "{date:?}");
        date = day_after(Calendar::ProlepticGregorian, date);
    }
}

#[test]
fn dates_that_are_not_allowed() {
    for (year, month, day) in [
        (1582, 10, 14),
        (1581, 12, 31),
        (1924, 1, 1),
        (1752, 9, 12),
        (1752, 9, 31),
        (1700, 2, 29),
        (1700, 0, 28),
        (1700, 13, 28),
        (1700, 12, 0),
        (1700, 12, 32),
        (1918, 2, 14),
        (0, 0, 0),
        (-1752, 9, 14),
        (i64::MIN, 10, 15),
        (i64::MAX, 10, 15),
        (1582 + (1 << 32), 10, 15),
        (1752, 9 + 256, 14),
        (1752, u32::MAX, u32::MAX),
    ] {
        assert_eq!(number_of(year, month, day), 16, "{year}-{month}-{day}");
    }
    assert_eq!([number_of(1752, 9, 13), number_of(1752, 9, 14), number_of(1923, 12, 31)], [0; 3]);
}

/// The next-day rule and the lists agree about every cutover, and over all years with some.
#[test]
fn every_day_after_another() {
    let agrees = |cutover: &Cutover, first: i64, count: i64| {
        let calendar = Calendar::Standard(*cutover);
        let mut date = date_of_day(calendar, first as i128).unwrap();
        for day in first + 1..first + count {
            date = day_after(calendar, date);
            assert_eq!(date_of_day(calendar, day as i128), Some(date), "{cutover:?}");
            assert_eq!(day_of_date(calendar, date), Some(day), "{cutover:?}");
        }
    };
    for cutover in allowed() {
        let day = day_of_date(Calendar::Standard(*cutover), cutover.first).unwrap();
        agrees(cutover, day - 45, 80);
    }
    for cutover in allowed().iter().step_by(40_000) {
        let [first, last] = [Date::new(-9999, 1, 1), Date::new(9999, 12, 31)]
            .map(|date| day_of_date(Calendar::Standard(*cutover), date).unwrap());
        agrees(cutover, first, last - first + 1);
    }
}

fn day_number(cutover: Numbers, year: i64, month: u32, day: u32) -> u32 {
    day_number_of_date(0, cutover, numbers(year, month, day)).number
}

#[test]
fn english_cutover() {
    let axis = read_units(b"standard", ENGLISH, b"days since 1752-09-02").axis;
    assert_eq!(axis.cutover, ENGLISH);
    let day = fields_of(0, ENGLISH, read_whole(axis, 1).instant).fields;
    assert_eq!((day.year, day.month, day.day), (1752, 9, 14));
    for day in 3..14 {
        assert_eq!(day_number(ENGLISH, 1752, 9, day), 13);
        assert_eq!(day_number(CUTOVER_1582, 1752, 9, day), 0);
        assert_eq!(day_number(ENGLISH, 1582, 10, day), 0);
    }
    let number = |year, month, day| day_number(ENGLISH, year, month, day);
    assert_eq!([number(1700, 2, 29), number(1800, 2, 29), number(1752, 9, 31), number(0, 1, 1)], [0, 12, 12, 12]);
}

/// Dropped are Julian dates; others that are missing are 12.
#[test]
fn dropped_and_missing() {
    for (cutover, year, month, day, number) in [
        (numbers(1752, 10, 1), 1752, 9, 30, 13),
        (numbers(1752, 10, 1), 1752, 9, 31, 12),
        (numbers(1752, 10, 1), 1752, 9, 19, 0),
        (numbers(1700, 3, 1), 1700, 2, 29, 13),
        (numbers(1700, 3, 1), 1700, 2, 30, 12),
        (numbers(1700, 2, 28), 1700, 2, 29, 12),
        (numbers(1700, 2, 28), 1700, 2, 27, 13),
        (numbers(1800, 3, 1), 1800, 2, 29, 13),
        (numbers(1900, 3, 1), 1900, 2, 29, 13),
        (numbers(1900, 3, 15), 1900, 2, 29, 0),
        (numbers(1900, 3, 15), 1900, 3, 14, 13),
    ] {
        assert_eq!(day_number(cutover, year, month, day), number, "{cutover:?} {year}-{month}-{day}");
    }
}

/// In the dropped dates' month a day is stepped back by at most their number, or to the last day kept from 31; each bound is reached.
#[test]
fn days_back_over_all_cutovers() {
    let back = |cutover: &Cutover, asked: u32| {
        let first = cutover.first;
        let dropped = cutover.dropped().last().unwrap();
        let text = format!("calendar months since 1500-01-{asked}");
        let axis = read_units(b"", numbers(first.year, first.month, first.day), text.as_bytes()).axis;
        let reading = read_whole(axis, 12 * (dropped.year - 1500) + dropped.month as i64 - 1);
        assert_eq!(reading.number, 0, "{cutover:?}");
        reading.days_back
    };
    for cutover in allowed() {
        let (count, dropped) = (cutover.dropped().count() as u32, cutover.dropped().last().unwrap());
        let is_first = cutover.first.day == 1;
        let most = if is_first { 31 - cutover.last_kept.day } else { count };
        let asked = if is_first { 31 } else { dropped.day };
        assert_eq!(back(cutover, asked), most, "{cutover:?}");
        assert!(back(cutover, 31) <= most && back(cutover, dropped.day) <= most, "{cutover:?}");
    }
}

/// Any date is taken for the cutover of another calendar, is kept and changes nothing.
#[test]
fn other_calendars() {
    for name in ["proleptic_gregorian", "julian", "noleap", "all_leap", "360_day"] {
        for cutover in [ZEROS, ENGLISH, RUSSIAN, numbers(i64::MIN, u32::MAX, u32::MAX)] {
            let read = |cutover| read_units(name.as_bytes(), cutover, b"calendar months since 1752-08-10");
            let (other, usual) = (read(cutover), read(CUTOVER_1582));
            assert_eq!(other, AxisAnswer { axis: Axis { cutover, ..usual.axis }, ..usual });
            assert_eq!(read_whole(other.axis, 1), read_whole(usual.axis, 1));
            assert_eq!(fields_of(usual.axis.calendar, cutover, -1), fields_of(usual.axis.calendar, CUTOVER_1582, -1));
        }
    }
}

#[test]
fn order_in_texts() {
    let long = [b' '; 129];
    for (name, text, number) in [
        (&b"tai"[..], &long[..], 1),
        (b"tai", b"", 2),
        (b"standard", &long, 1),
        (b"standard", b"", 16),
        (b"", b"s since 1900-13-01", 16),
        (b"gregorian", b"s since 1582-10-05", 16),
        (b"julian", b"", 3),
    ] {
        let refused = AxisAnswer { number, ..Default::default() };
        assert_eq!(read_units(name, RUSSIAN, text), refused);
        assert_eq!(read_iso(name, RUSSIAN, text).number, number);
        let mut state = start_units();
        add_units(&mut state, text);
        assert_eq!(end_units(&mut state, name, RUSSIAN), refused);
        assert_eq!(end_units(&mut state, name, RUSSIAN).number, 11);
    }
}

#[test]
fn order_with_codes() {
    let axis = Axis { cutover: RUSSIAN, reference: i64::MAX, ..Default::default() };
    for (axis, number) in [
        (Axis { calendar: 6, period: 8, mode: 2, ..axis }, 2),
        (Axis { period: 8, ..axis }, 3),
        (Axis { mode: 2, ..axis }, 3),
        (axis, 16),
        (Axis { calendar: 2, ..axis }, 5),
        (Axis { cutover: ZEROS, reference: 0, ..axis }, 16),
    ] {
        let refused = Reading { number, ..Default::default() };
        assert_eq!([read_whole(axis, 1), read_double(axis, f64::NAN)], [refused; 2]);
        let fields = Fields { year: 10_000, month: 13, ..Default::default() };
        assert_eq!([write_instant(axis, i64::MAX).number, write_fields(axis, fields).number], [number; 2]);
        assert_eq!([read_wholes(axis, &[1], &mut []).number, read_doubles(axis, &[1.0], &mut []).number], [number; 2]);
    }
    assert_eq!([fields_of(0, RUSSIAN, i64::MAX).number, fields_of(6, RUSSIAN, 0).number], [16, 2]);
    assert_eq!([write_iso(0, RUSSIAN, i64::MAX, &mut []).number, write_iso(6, RUSSIAN, 0, &mut []).number], [16, 2]);
    assert_eq!(day_number_of_date(0, RUSSIAN, numbers(10_000, 13, 32)).number, 16);
    assert_eq!(date_of_day_number(0, ZEROS, i64::MAX).number, 16);
}
