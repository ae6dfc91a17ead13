//! Day numbers against what is known of them from elsewhere.

use second::calendar::{CALENDARS, Calendar, Date, STANDARD};
use second::days::{date_of_day, day_of_date};

fn day(calendar: Calendar, year: i64, month: u32, of_month: u32) -> i64 {
    day_of_date(calendar, Date::new(year, month, of_month)).unwrap()
}

#[test]
fn every_day_back_and_forth() {
    for calendar in CALENDARS {
        let first = day(calendar, -9999, 1, 1);
        let last = day(calendar, 9999, 12, if calendar == Calendar::Day360 { 30 } else { 31 });
        for number in (first..=last).step_by(7).chain([last]) {
            let date = date_of_day(calendar, number as i128).unwrap();
            assert_eq!(day_of_date(calendar, date), Some(number));
        }
        assert_eq!(date_of_day(calendar, first as i128 - 1), None);
        assert_eq!(date_of_day(calendar, last as i128 + 1), None);
    }
}

#[test]
fn cycles() {
    let years = |calendar, from, to| day(calendar, to, 1, 1) - day(calendar, from, 1, 1);
    for from in (-9999..9599).step_by(37) {
        assert_eq!(years(Calendar::ProlepticGregorian, from, from + 400), 146_097);
        assert_eq!(years(Calendar::Noleap, from, from + 400), 146_000);
        assert_eq!(years(Calendar::AllLeap, from, from + 400), 146_400);
        assert_eq!(years(Calendar::Day360, from, from + 400), 144_000);
    }
    for from in (-9999..-400).chain(1..9599).step_by(37) {
        assert_eq!(years(Calendar::Julian, from, from + 400), 146_100);
    }
    assert_eq!(years(STANDARD, 1582, 1583), 355);
    for calendar in [STANDARD, Calendar::Julian] {
        assert_eq!(years(calendar, -1, 1), 366);
        assert_eq!(years(calendar, -200, 201), 146_100);
    }
}

/// Julian day numbers: 1970-01-01 is 2440588, 1858-11-17 is 2400001, -4713-01-01 of `standard` and of `julian` is 0.
#[test]
fn julian_day_numbers() {
    assert_eq!(day(STANDARD, 1858, 11, 17), 2_400_001 - 2_440_588);
    assert_eq!(day(STANDARD, -4713, 1, 1), -2_440_588);
    assert_eq!(day(STANDARD, 1582, 10, 15), 2_299_161 - 2_440_588);
    assert_eq!(day(Calendar::Julian, -4713, 1, 1) - day(Calendar::Julian, 1582, 10, 4), -2_299_160);
    assert_eq!(day(Calendar::ProlepticGregorian, 1, 1, 1), -719_162);
}

/// Each calendar counts from its own 1970-01-01.
#[test]
fn dates_that_do_not_exist() {
    let none = |calendar, year, month, of_month| {
        assert_eq!(
            day_of_date(calendar, Date::new(year, month, of_month)),
            None,
            "{calendar:?} {year}-{month}-{of_month}"
        );
    };
    for calendar in CALENDARS {
        assert_eq!(day(calendar, 1970, 1, 1), 0);
        none(calendar, 1970, 0, 1);
        none(calendar, 1970, 13, 1);
        none(calendar, 1970, 1, 0);
        none(calendar, 1970, 1, 32);
        none(calendar, 10_000, 1, 1);
        none(calendar, -10_000, 12, 31);
    }
    for gap in 5..15 {
        none(STANDARD, 1582, 10, gap);
    }
    for calendar in [STANDARD, Calendar::Julian] {
        none(calendar, 0, 6, 1);
        none(calendar, -4, 2, 29);
        day(calendar, -1, 2, 29);
        day(calendar, -9, 2, 29);
        day(calendar, 4, 2, 29);
    }
    none(STANDARD, 1900, 2, 29);
    none(Calendar::Julian, 1901, 2, 29);
    none(Calendar::AllLeap, 1901, 2, 30);
    none(Calendar::Noleap, 2000, 2, 29);
    none(Calendar::Day360, 2000, 1, 31);
    day(STANDARD, 1500, 2, 29);
    day(Calendar::ProlepticGregorian, 0, 2, 29);
}
