//! The tables of worked dates in source document 000, cut to seconds or days as it prints them.

use second::cutover::OF_1582;
use second::iso::iso_text;
use second::reading::read_whole;
use second::units_text::read_units;

fn agrees(units: &str, first: i64, step: i64, dates: &[&str]) {
    let axis = read_units(b"proleptic_gregorian", OF_1582.first, units.as_bytes()).unwrap();
    for (i, date) in dates.iter().enumerate() {
        let reading = read_whole(axis, first + step * i as i64).unwrap();
        assert!(iso_text(axis.calendar, reading.instant).unwrap().starts_with(date), "{units} {date}");
    }
}

#[test]
fn fixed_months_and_years() {
    let months = [
        "1930-01-01T00:00:00",
        "1930-01-31T10:29:03",
        "1930-03-02T20:58:07",
        "1930-04-02T07:27:11",
        "1930-05-02T17:56:15",
        "1930-06-02T04:25:19",
        "1930-07-02T14:54:22",
        "1930-08-02T01:23:26",
        "1930-09-01T11:52:30",
        "1930-10-01T22:21:34",
        "1930-11-01T08:50:38",
        "1930-12-01T19:19:42",
    ];
    agrees("months since 1930-01-01", 0, 1, &months);
    let years = [
        "1850-01-01T00:00:00",
        "1860-01-01T10:07:39",
        "1869-12-31T20:15:19",
        "1880-01-01T06:22:59",
        "1889-12-31T16:30:38",
        "1900-01-01T02:38:18",
        "1910-01-01T12:45:58",
        "1920-01-01T22:53:38",
        "1930-01-01T09:01:17",
        "1940-01-01T19:08:57",
    ];
    agrees("years since 1850-01-01", 0, 10, &years);
}

#[test]
fn calendar_months_and_years() {
    let months = [
        "1930-01-31",
        "1930-02-28",
        "1930-03-31",
        "1930-04-30",
        "1930-05-31",
        "1930-06-30",
        "1930-07-31",
        "1930-08-31",
        "1930-09-30",
        "1930-10-31",
        "1930-11-30",
        "1930-12-31",
        "1931-01-31",
    ];
    agrees("calendar months since 1930-01-31 00:00:00Z", 0, 1, &months);
    agrees(
        "calendar months since 1930-01-01 00:00:00Z",
        1,
        1,
        &["1930-02-01", "1930-03-01", "1930-04-01", "1930-05-01"],
    );
    let years = [
        "2008-02-29",
        "2009-02-28",
        "2010-02-28",
        "2011-02-28",
        "2012-02-29",
        "2013-02-28",
        "2014-02-28",
        "2015-02-28",
        "2016-02-29",
        "2017-02-28",
        "2018-02-28",
        "2019-02-28",
        "2020-02-29",
        "2021-02-28",
        "2022-02-28",
    ];
    agrees("calendar years since 2008-02-29 00:00:00Z", 0, 1, &years);
}
