//! The cases by hand of document 01 with the numbers of document 02, and the years of `julian` before year 1 (document 02, CR 2).

use second::axis::{Axis, Mode, Period};
use second::calendar::{Date, STANDARD};
use second::cutover::OF_1582;
use second::fields::Fields;
use second::instant::fields_of;
use second::iso::{iso_text, read_iso};
use second::reading::{read_double, read_whole};
use second::refusal::Refusal;
use second::units_text::read_units;
use second::writing::{write_fields, write_instant};

fn axis(calendar: &str, units: &str) -> Axis {
    read_units(calendar.as_bytes(), OF_1582.first, units.as_bytes()).expect(units)
}

/// The ISO text of a whole offset on an axis.
fn shown(calendar: &str, units: &str, offset: i64) -> String {
    let axis = axis(calendar, units);
    let reading = read_whole(axis, offset).expect(units);
    assert!(reading.exact);
    iso_text(axis.calendar, reading.instant).unwrap()
}

#[track_caller]
fn expect(calendar: &str, units: &str, offset: i64, start: &str) {
    let text = shown(calendar, units, offset);
    let midnight = format!("{start}T00:00:00.000000Z");
    assert_eq!(text, if start.len() > 11 { start.to_string() } else { midnight });
}

#[test]
fn days_of_each_calendar() {
    expect("standard", "days since 1582-10-04", 1, "1582-10-15");
    expect("proleptic_gregorian", "days since 1582-10-04", 1, "1582-10-05");
    expect("standard", "days since -1-12-31", 1, "0001-01-01");
    expect("julian", "days since 1900-02-28", 1, "1900-02-29");
    expect("360_day", "days since 2023-02-30", 1, "2023-03-01");
    expect("noleap", "days since 2000-02-28", 1, "2000-03-01");
}

/// Year 1 comes after -1, and -1, -5, -9 are leap years.
#[test]
fn years_of_julian() {
    expect("julian", "days since -1-12-31", 1, "0001-01-01");
    expect("julian", "days since -1-02-28", 1, "-0001-02-29");
    expect("julian", "days since -4-02-28", 1, "-0004-03-01");
    expect("julian", "days since -5-02-28", 1, "-0005-02-29");
    expect("julian", "days since -9-02-28", 1, "-0009-02-29");
    expect("julian", "calendar years since -5-02-29", 4, "-0001-02-29");
    expect("julian", "calendar years since -5-02-29", 5, "0001-02-28");
    expect("julian", "calendar months since -1-12-31", 2, "0001-02-28");
    let written = |units, text: &str| {
        let instant = read_iso(b"julian", OF_1582.first, text.as_bytes())?;
        write_instant(axis("julian", units), instant)
    };
    assert_eq!(written("days since 1-01-01", "-1-12-31"), Ok(-1));
    assert_eq!(written("calendar years since 1-06-15", "-2-06-15"), Ok(-2));
    assert_eq!(written("days since 1970-01-01", "-9999-01-01"), Ok(-4_371_312));
    assert_eq!(written("days since 1970-01-01", "0000-01-01"), Err(Refusal::MissingDate));
    assert_eq!(read_units(b"julian", OF_1582.first, b"days since 0000-01-01").unwrap_err().number(), 12);
}

#[test]
fn fixed_months_and_years() {
    expect("standard", "months since 1930-01-01", 1, "1930-01-31T10:29:03.831225Z");
    expect("standard", "years since 1850-01-01", 10, "1860-01-01T10:07:39.747000Z");
}

#[test]
fn calendar_months() {
    expect("standard", "calendar months since 1930-01-31", 1, "1930-02-28");
    expect("standard", "calendar months since 1582-09-10", 1, "1582-10-04");
}

#[test]
fn zone() {
    expect("standard", "hours since 1930-01-01 00:30 +01:00", 1, "1930-01-01T00:30:00.000000Z");
}

#[test]
fn tie() {
    let reading = read_double(axis("standard", "seconds since 1970-01-01"), 3.0 / 128.0).unwrap();
    assert_eq!((reading.instant, reading.exact), (23_438, false));
}

#[test]
fn last_days() {
    expect("standard", "days since 1970-01-01", 2_932_896, "9999-12-31");
    expect("360_day", "days since 1970-01-01", 2_890_799, "9999-12-30");
    let past = |calendar, offset| read_whole(axis(calendar, "days since 1970-01-01"), offset);
    assert_eq!(past("standard", 2_932_897), Err(Refusal::OutOfRange));
    assert_eq!(past("360_day", 2_890_800), Err(Refusal::OutOfRange));
}

#[test]
fn written_months() {
    let axis = axis("standard", "calendar months since 1930-01-31");
    let at = |text: &str| read_iso(b"standard", OF_1582.first, text.as_bytes()).unwrap();
    assert_eq!(write_instant(axis, at("1930-02-28")), Ok(1));
    assert_eq!(write_instant(axis, at("1930-02-27")), Err(Refusal::Inexact));
    let midnight = |day| Fields::midnight(Date::new(1930, 2, day));
    assert_eq!(write_fields(axis, midnight(28)), Ok(1));
    assert_eq!(write_fields(axis, midnight(27)), Err(Refusal::Inexact));
}

#[test]
fn refused_units() {
    let refused = |text: &str| read_units(b"standard", OF_1582.first, text.as_bytes()).unwrap_err().number();
    assert_eq!(refused("days since 1582-10-05"), 13);
    assert_eq!(refused("ss since 1970"), 3);
    assert_eq!(refused("days since 1970-01-01Z"), 3);
}

/// The slips that document 01 names at its end.
#[test]
fn slips() {
    assert_eq!(fields_of(STANDARD, -1).unwrap().date, Date::new(1969, 12, 31));
    expect("standard", "calendar months since 1930-01-31", 2, "1930-03-31");
    expect("standard", "calendar years since -1-06-01", 1, "0001-06-01");
    expect("standard", "calendar months since 1930-03-01 00:30 +01:00", 1, "1930-03-28T23:30:00.000000Z");
    let year = Axis { period: Period::Year, mode: Mode::Calendar, ..axis("standard", "s since 1970") };
    assert_eq!(write_instant(year, read_iso(b"", OF_1582.first, b"-1-01-01").unwrap()), Ok(-1970));
}
