//! The units text and ISO text at the edges of their grammar, and the order of refusals.

use second::cutover::OF_1582;
use second::iso::{iso_text, read_iso, write_iso};
use second::refusal::Refusal;
use second::units_text::{meanings, read_units};
use second::{axis, calendar};

fn number(text: &str) -> u32 {
    assert!(meanings(text.as_bytes()).len() <= 1, "more than one meaning: {text}");
    read_units(b"", OF_1582.first, text.as_bytes()).map_or_else(Refusal::number, |_| 0)
}

#[track_caller]
fn all(answer: u32, texts: &[&str]) {
    for text in texts {
        assert_eq!(number(text), answer, "{text:?}");
    }
}

#[test]
fn words() {
    all(0, &["s since 1970", "secs since 1970", "mons since 1970", "yrs  SiNcE   1970", "CaLeNdAr  hrs since 1970"]);
    all(0, &["millisecs since 1", "msecs since 1", "mins since 1", "weeks since 1", "minute since 1", "mon since 1"]);
    all(
        3,
        &[
            "",
            " s since 1970",
            "s since 1970 ",
            "ss since 1970",
            "dayss since 1970",
            "Days since 1970",
            "dayssince 1970",
        ],
    );
    all(
        3,
        &["days after 1970", "days since1970", "days since\t1970", "calendardays since 1970", "calendar since 1970"],
    );
    all(3, &["calendar calendar days since 1970", "sss since 1970", "day since", "day since ", "since 1970", "s"]);
}

#[test]
fn dates() {
    all(
        0,
        &[
            "s since 1970-1-1",
            "s since +1970",
            "s since -1",
            "s since 0001-12",
            "s since 1970-01-01T0",
            "s since 1970-01-01 0",
        ],
    );
    all(
        3,
        &["s since 19700", "s since 1970-", "s since 1970-001", "s since 1970-1-", "s since 1970-1-001", "s since +-1"],
    );
    all(
        3,
        &[
            "s since 1970T0",
            "s since 1970-01T0",
            "s since 1970-01-01t0",
            "s since 1970-01-01  0",
            "s since 1970-01-01T",
        ],
    );
    all(4, &["s since 1970-0", "s since 1970-13", "s since 1970-1-0", "s since 1970-1-32", "s since 1970-99-99"]);
    all(4, &["s since 1970-1-1 24", "s since 1970-1-1 0:60", "s since 1970-1-1 0:0:60"]);
    all(12, &["s since 0", "s since -0", "s since 0000", "s since 1970-2-29"]);
    all(13, &["s since 1582-10-5", "s since 1582-10-14"]);
}

#[test]
fn times_and_zones() {
    let start = "s since 1970-01-01 ";
    let with = |ends: &[&str], answer| {
        ends.iter().for_each(|end| assert_eq!(number(&format!("{start}{end}")), answer, "{end}"))
    };
    with(&["0:0", "00:00:00", "1:2:3.4", "1:2:3.456789", "23:59:59.999999"], 0);
    with(&["0:", "0:0:", "0:0:0.", "0:0:0.1234567", "000", "0:000", "0:0:000", ".5", "0.5", "0:0.5"], 3);
    with(
        &["0Z", "0 z", "0uTc", "0 GmT", "0+00", "0 -0000", "0 +00:00", "0:0:0.1Z", "1+05", "1 -05:30", "0:0:0.5+0530"],
        0,
    );
    with(
        &["0  Z", "0 Z ", "0ZZ", "0UT", "0+0", "0+000", "0+00:", "0+00:0", "0 + 00", "0 00", "0+00:00:00", "0+00 00"],
        3,
    );
    with(&["0+24", "0-2400", "0+0060", "0+23:60", "0 +99:99"], 4);
    with(&["0+2359", "0-23:59"], 0);
}

#[test]
fn meaning_of_fractions_and_zones() {
    let at = |text: &str| read_iso(b"standard", OF_1582.first, text.as_bytes()).unwrap();
    assert_eq!(at("1970-01-01T0:0:0.5"), 500_000);
    assert_eq!(at("1970-01-01T0:0:0.000001"), 1);
    assert_eq!(at("1970-01-01T0:0:0.05"), 50_000);
    assert_eq!(at("1970-01-01T1+01:00"), 0);
    assert_eq!(at("1970-01-01T1 -0130"), 9_000_000_000);
    assert_eq!(at("1970-01-01T10-05"), 54_000_000_000);
}

#[test]
fn order_of_refusals() {
    let long = format!("s since {:>121}", "1970");
    assert_eq!(long.len(), 129);
    let number = |name: &[u8], text: &str| read_units(name, OF_1582.first, text.as_bytes()).unwrap_err().number();
    assert_eq!(number(b"tai", &long), 1);
    assert_eq!(number(b"tai", "q"), 2);
    assert_eq!(number(b"Standard", "s since 1970-13"), 2);
    assert_eq!(number(&[b's'; 500], ""), 2);
    assert_eq!(number(b"", "s since 9999-12-32 99-99"), 4);
    assert_eq!(number(b"", "s since 9999-12-31 23:00 -01:00"), 5);
    assert_eq!(number(b"", "s since -9999-01-01 00:59 +01:00"), 5);
    assert_eq!(number(b"360_day", "s since 9999-12-30 23:00 -01:00"), 5);
    assert!(
        read_units(
            b"",
            OF_1582.first,
            &long.as_bytes()[..8].iter().chain(&long.as_bytes()[9..]).copied().collect::<Vec<u8>>()
        )
        .is_ok()
    );
}

#[test]
fn names() {
    let code = |name: &str| calendar::calendar_named(name.as_bytes()).map(|calendar| calendar.code());
    let names =
        ["", "standard", "gregorian", "proleptic_gregorian", "ISO8601", "julian", "noleap", "no_leap", "365_day"];
    assert_eq!(names.map(|name| code(name).unwrap()), [0, 0, 0, 1, 1, 2, 3, 3, 3]);
    let names = ["all_leap", "366_day", "uniform30day", "360_day"];
    assert_eq!(names.map(|name| code(name).unwrap()), [4, 4, 5, 5]);
    for other in ["utc", "tai", "none", "Standard", "iso8601", "standard ", " ", "360day"] {
        assert_eq!(code(other), None, "{other}");
    }
}

#[test]
fn iso_written_and_read() {
    let written = |instant| iso_text(calendar::Calendar::ProlepticGregorian, instant).unwrap();
    assert_eq!(written(-1), "1969-12-31T23:59:59.999999Z");
    assert_eq!(written(-62_167_219_200_000_001), "-0001-12-31T23:59:59.999999Z");
    let mut room = [b'#'; 30];
    assert_eq!(write_iso(calendar::STANDARD, 0, &mut room[..26]), Err(Refusal::NoRoom));
    assert_eq!(room, [b'#'; 30]);
    assert_eq!(write_iso(calendar::STANDARD, 0, &mut room), Ok(27));
    assert_eq!(&room, b"1970-01-01T00:00:00.000000Z###");
    assert_eq!(write_iso(calendar::STANDARD, i64::MAX, &mut []), Err(Refusal::OutOfRange));
    assert_eq!(read_iso(b"", OF_1582.first, b""), Err(Refusal::IllFormed));
}

#[test]
fn axis_read() {
    let axis = read_units(b"noleap", OF_1582.first, b"calendar  yrs SINCE 1970-01-02").unwrap();
    assert_eq!((axis.calendar, axis.reference), (calendar::Calendar::Noleap, 86_400_000_000));
    assert_eq!((axis.period, axis.mode), (axis::Period::Year, axis::Mode::Calendar));
}
