//! The safe wrapper, call by call, on cases by hand of document 01. A call that the archive does not export yet is not tried.

use std::io::Write;
use uppinalo::*;

const NOON: i64 = 43_200_000_000;

fn are_exported(calls: &[&str]) -> bool {
    let missing: Vec<&&str> = calls.iter().filter(|call| !is_exported(call)).collect();
    if !missing.is_empty() {
        println!("not tried, since these calls are not exported yet: {missing:?}");
    }
    missing.is_empty()
}

fn axis(calendar: Calendar, period: Period, mode: Mode, reference: i64) -> Axis {
    Axis { calendar, period, mode, reference, cutover: CUTOVER_1582 }
}

/// The rows of README.md's table of refusals.
#[test]
fn words() {
    use Refusal::*;
    let readme = include_str!("../../../README.md");
    for refusal in [
        TextTooLong,
        UnknownCalendar,
        IllFormed,
        ImpossibleField,
        OutOfRange,
        Inexact,
        NoRoom,
        NotFinite,
        PartRecord,
        NotATime,
        NotOpen,
        MissingDate,
        DroppedDate,
        BadLeapSeconds,
        Before1972,
        CutoverNotAllowed,
    ] {
        let row = format!("\n| {} | {} |\n", refusal.number(), refusal.words());
        assert!(readme.contains(&row), "{refusal}");
    }
}

#[test]
fn days() {
    if !are_exported(&["date_of_day", "day_of_date"]) {
        return;
    }
    let day = Calendar::Standard.day_of_date(None, Date { year: 1582, month: 10, day: 4 }).unwrap();
    assert_eq!(Calendar::Standard.date_of_day(None, day + 1), Ok(Date { year: 1582, month: 10, day: 15 }));
    let first = Calendar::Julian.day_of_date(None, Date { year: 1, month: 1, day: 1 }).unwrap();
    assert_eq!(Calendar::Julian.date_of_day(None, first - 1), Ok(Date { year: -1, month: 12, day: 31 }));
    assert_eq!(Calendar::Julian.date_of_day(None, i64::MAX), Err(Refusal::OutOfRange));
}

/// A date may be missing or dropped in one calendar and good in another; a mistyped one is good in none.
#[test]
fn refused_dates() {
    if !are_exported(&["day_of_date"]) {
        return;
    }
    let refusal = |calendar: Calendar, year, month, day| calendar.day_of_date(None, Date { year, month, day }).err();
    for (month, day) in [(0, 1), (13, 1), (1, 0), (1, 32), (13, 32)] {
        assert_eq!(refusal(Calendar::Julian, 0, month, day), Some(Refusal::ImpossibleField));
    }
    assert_eq!(refusal(Calendar::Julian, 0, 1, 1), Some(Refusal::MissingDate));
    assert_eq!(refusal(Calendar::Noleap, 0, 1, 1), None);
    assert_eq!(refusal(Calendar::Day360, 2000, 1, 31), Some(Refusal::MissingDate));
    assert_eq!(refusal(Calendar::Day360, 2000, 2, 30), None);
    assert_eq!(refusal(Calendar::AllLeap, 2000, 2, 30), Some(Refusal::MissingDate));
    for day in 5..15 {
        assert_eq!(refusal(Calendar::Standard, 1582, 10, day), Some(Refusal::DroppedDate));
        assert_eq!(refusal(Calendar::Julian, 1582, 10, day), None);
    }
    assert_eq!(refusal(Calendar::Standard, 10_000, 13, 32), Some(Refusal::OutOfRange));
}

#[test]
fn refused_dates_in_texts() {
    if !are_exported(&["read_units", "read_iso", "start_units", "add_units", "end_units"]) {
        return;
    }
    let cases = [
        ("standard", "1900-13-01", Refusal::ImpossibleField),
        ("standard", "1900-02-30T24:00", Refusal::ImpossibleField),
        ("standard", "1582-10-05T00+24", Refusal::ImpossibleField),
        ("360_day", "1900-01-31 00:00 +00:60", Refusal::ImpossibleField),
        ("standard", "1900-02-30", Refusal::MissingDate),
        ("julian", "0000-01-01", Refusal::MissingDate),
        ("360_day", "1900-01-31", Refusal::MissingDate),
        ("standard", "1582-10-05", Refusal::DroppedDate),
        ("gregorian", "1582-10-14T23:59:59.999999-23:59", Refusal::DroppedDate),
    ];
    for (calendar, date, refusal) in cases {
        let units = format!("days since {date}");
        assert_eq!(read_iso(calendar, None, date), Err(refusal), "{date}");
        assert_eq!(Axis::of_units(calendar, None, &units), Err(refusal), "{date}");
        let mut reader = UnitsReader::new();
        reader.add(units.as_bytes());
        assert_eq!(reader.end(calendar, None), Err(refusal), "{date}");
    }
}

#[test]
fn fields() {
    if !are_exported(&["fields_of"]) {
        return;
    }
    let fields = Calendar::Noleap.fields_of(None, -1).unwrap();
    assert_eq!((fields.year, fields.month, fields.day, fields.microsecond), (1969, 12, 31, 999_999));
    assert_eq!(Calendar::Noleap.fields_of(None, i64::MIN), Err(Refusal::OutOfRange));
}

#[test]
fn units() {
    if !are_exported(&["read_units"]) {
        return;
    }
    let expected = axis(Calendar::Day360, Period::Month, Mode::Calendar, NOON);
    assert_eq!(Axis::of_units("360_day", None, "calendar months since 1970-01-01 12:00"), Ok(expected));
    assert_eq!(Axis::of_units("tai", None, "days since 1970"), Err(Refusal::UnknownCalendar));
    assert_eq!(Axis::of_units("", None, "ss since 1970"), Err(Refusal::IllFormed));
    assert_eq!(Axis::of_units("", None, &"d".repeat(129)), Err(Refusal::TextTooLong));
}

#[test]
fn units_in_fragments() {
    if !are_exported(&["start_units", "add_units", "end_units"]) {
        return;
    }
    let (name, text) = ("360_day", "calendar months since 1970-01-01 12:00");
    let expected = Ok(axis(Calendar::Day360, Period::Month, Mode::Calendar, NOON));
    let mut reader = UnitsReader::new();
    reader.add(&text.as_bytes()[..13]);
    reader.add(b"");
    let mut other = reader.clone();
    reader.add(&text.as_bytes()[13..]);
    assert_eq!(reader.end(name, None), expected);
    other.extend(text.as_bytes()[13..].chunks(1));
    assert_eq!(other.end(name, None), expected);
    let mut reader = UnitsReader::default();
    assert_eq!(std::io::copy(&mut text.as_bytes(), &mut reader).unwrap(), 38);
    reader.flush().unwrap();
    assert_eq!(reader.clone().end("tai", None), Err(Refusal::UnknownCalendar));
    assert_eq!(reader.end(name, None), expected);
    assert_eq!(UnitsReader::new().end("", None), Err(Refusal::IllFormed));
}

/// Bytes past the 128th are taken too, and the end refuses the text for them.
#[test]
fn units_in_long_fragments() {
    if !are_exported(&["start_units", "add_units", "end_units"]) {
        return;
    }
    let mut reader = UnitsReader::new();
    write!(reader, "s since{:>121}", "1970").unwrap();
    assert_eq!(reader.clone().end("standard", None), Ok(axis(Calendar::Standard, Period::Second, Mode::Fixed, 0)));
    reader.write_all(b"Z").unwrap();
    assert_eq!(reader.clone().end("tai", None), Err(Refusal::TextTooLong));
    reader.extend([&[b' '; 5000][..], b"s since 1970"]);
    assert_eq!(reader.end("", None), Err(Refusal::TextTooLong));
}

#[test]
fn iso() {
    if !are_exported(&["read_iso", "write_iso"]) {
        return;
    }
    let text = "1969-12-31T12:00:00.000000Z";
    assert_eq!(read_iso("", None, text), Ok(Reading { instant: -NOON, exact: true, days_back: 0 }));
    assert_eq!(Calendar::Standard.iso_text(None, -NOON).as_deref(), Ok(text));
    assert_eq!(Calendar::Standard.write_iso(None, 0, &mut [0; 26]), Err(Refusal::NoRoom));
    assert_eq!(Calendar::Standard.iso_text(None, i64::MAX), Err(Refusal::OutOfRange));
}

#[test]
fn one_offset() {
    if !are_exported(&["read_whole", "read_double"]) {
        return;
    }
    let days = axis(Calendar::Standard, Period::Day, Mode::Fixed, 0);
    let reading = |instant, exact| Ok(Reading { instant, exact, days_back: 0 });
    assert_eq!(days.read(-1), reading(-2 * NOON, true));
    assert_eq!(days.read(0.5), reading(NOON, true));
    assert_eq!(days.read(0.1), reading(8_640_000_000, false));
    assert_eq!(days.read(2_932_897_i64), Err(Refusal::OutOfRange));
    assert_eq!(days.read(f64::NAN), Err(Refusal::NotFinite));
    let past = Axis { reference: i64::MAX, ..days };
    assert_eq!(past.read(f64::NAN), Err(Refusal::OutOfRange));
}

/// The day of the month goes back to the last that exists, and the reading says by how much.
#[test]
fn days_back() {
    if !are_exported(&["read_units", "read_iso", "read_whole", "read_double"]) {
        return;
    }
    let cases = [
        ("standard", "calendar months since 1930-01-31", 1, "1930-02-28", 3),
        ("standard", "calendar months since 1932-01-31", 1, "1932-02-29", 2),
        ("standard", "calendar months since 1930-01-31", 2, "1930-03-31", 0),
        ("standard", "calendar years since 2000-02-29", 1, "2001-02-28", 1),
        ("standard", "calendar months since 1582-09-05", 1, "1582-10-04", 1),
        ("standard", "calendar years since 1581-10-14", 1, "1582-10-04", 10),
        ("standard", "calendar months since 1582-09-15", 1, "1582-10-15", 0),
        ("julian", "calendar months since 1582-09-14", 1, "1582-10-14", 0),
        ("360_day", "calendar months since 2023-01-30", 1, "2023-02-30", 0),
        ("standard", "calendar days since 1930-01-31", 28, "1930-02-28", 0),
        ("standard", "days since 1930-01-31", 28, "1930-02-28", 0),
    ];
    for (calendar, units, offset, date, days_back) in cases {
        let axis = Axis::of_units(calendar, None, units).unwrap();
        let at = Reading { days_back, ..read_iso(calendar, None, date).unwrap() };
        assert_eq!(axis.read(offset), Ok(at), "{units}");
        assert_eq!(axis.read(offset as f64), Ok(at), "{units}");
        assert_eq!(read_iso(calendar, None, date).map(|reading| reading.days_back), Ok(0));
    }
}

const ENGLISH: Date = Date { year: 1752, month: 9, day: 14 };
const RUSSIAN: Date = Date { year: 1918, month: 2, day: 14 };

/// An English diary, from 1752-09-02 to 1752-09-14.
#[test]
fn english_cutover() {
    if !are_exported(&[
        "read_units",
        "read_whole",
        "write_iso",
        "write_fields",
        "fields_of",
        "day_of_date",
        "date_of_day",
    ]) {
        return;
    }
    let diary = Axis::of_units("standard", ENGLISH, "days since 1752-09-02").unwrap();
    assert_eq!(diary.cutover, ENGLISH);
    let reading = diary.read(1).unwrap();
    assert_eq!(diary.iso_text(reading.instant).as_deref(), Ok("1752-09-14T00:00:00.000000Z"));
    assert_eq!(diary.fields_of(reading.instant).map(|fields| fields.day), Ok(14));
    assert_eq!(Calendar::Standard.iso_text(None, reading.instant), diary.iso_text(reading.instant));
    let date = |day| Date { day, ..ENGLISH };
    let first = Calendar::Standard.day_of_date(ENGLISH, ENGLISH).unwrap();
    assert_eq!(Calendar::Standard.date_of_day(ENGLISH, first - 1), Ok(date(2)));
    for day in 3..14 {
        assert_eq!(Calendar::Standard.day_of_date(ENGLISH, date(day)), Err(Refusal::DroppedDate));
        assert_eq!(Calendar::Standard.day_of_date(None, date(day)).map(|_| ()), Ok(()));
        let fields = Fields { year: 1752, month: 9, day, ..Default::default() };
        assert_eq!(diary.write_fields(fields), Err(Refusal::DroppedDate));
    }
    let months = Axis::of_units("", ENGLISH, "calendar months since 1752-08-13").unwrap();
    assert_eq!(months.read(1).map(|reading| reading.days_back), Ok(11));
}

#[test]
fn cutovers_that_are_not_allowed() {
    if !are_exported(&["read_units", "read_iso", "write_iso", "fields_of", "day_of_date", "date_of_day", "end_units"]) {
        return;
    }
    let refused = Refusal::CutoverNotAllowed;
    for cutover in [RUSSIAN, Date::default(), Date { day: 12, ..ENGLISH }, Date { year: 1924, ..ENGLISH }] {
        assert_eq!(Axis::of_units("standard", cutover, "days since 1970"), Err(refused));
        assert_eq!(Axis::of_units("tai", cutover, ""), Err(Refusal::UnknownCalendar));
        assert_eq!(UnitsReader::new().end("", cutover), Err(refused));
        assert_eq!(read_iso("gregorian", cutover, "1970-13"), Err(refused));
        assert_eq!(Calendar::Standard.iso_text(cutover, 0), Err(refused));
        assert_eq!(Calendar::Standard.fields_of(cutover, i64::MAX), Err(refused));
        assert_eq!(Calendar::Standard.date_of_day(cutover, 0), Err(refused));
        assert_eq!(Calendar::Standard.day_of_date(cutover, RUSSIAN), Err(refused));
        let axis = Axis { cutover, ..axis(Calendar::Standard, Period::Day, Mode::Fixed, i64::MAX) };
        assert_eq!((axis.read(0), axis.write(0)), (Err(refused), Err(refused)));
        let julian = Axis::of_units("julian", cutover, "days since 1970").unwrap();
        assert_eq!((julian.cutover, julian.read(0).map(|reading| reading.instant)), (cutover, Ok(0)));
    }
}

#[test]
fn writing() {
    if !are_exported(&["write_instant", "write_fields"]) {
        return;
    }
    let days = axis(Calendar::AllLeap, Period::Day, Mode::Fixed, 0);
    assert_eq!(days.write(6 * NOON), Ok(3));
    assert_eq!(days.write(NOON), Err(Refusal::Inexact));
    let fields = Fields { year: 1970, month: 2, day: 30, ..Default::default() };
    assert_eq!(days.write_fields(fields), Err(Refusal::MissingDate));
    assert_eq!(days.write_fields(Fields { hour: 24, ..fields }), Err(Refusal::ImpossibleField));
    assert_eq!(days.write_fields(Fields { year: 10_000, ..fields }), Err(Refusal::OutOfRange));
    assert_eq!(days.write_fields(Fields { day: 29, ..fields }), Ok(59));
    let standard = Axis { calendar: Calendar::Standard, ..days };
    let dropped = Fields { year: 1582, month: 10, day: 14, hour: 12, ..Default::default() };
    assert_eq!(standard.write_fields(dropped), Err(Refusal::DroppedDate));
    assert_eq!(standard.write_fields(Fields { minute: 60, ..dropped }), Err(Refusal::ImpossibleField));
    assert_eq!(standard.write_fields(Fields { day: 15, ..dropped }), Err(Refusal::Inexact));
}

#[test]
fn runs() {
    if !are_exported(&["read_wholes", "read_doubles"]) {
        return;
    }
    let days = axis(Calendar::Standard, Period::Day, Mode::Fixed, 0);
    let mut room = [7; 3];
    assert_eq!(days.read_doubles(&[0.5, 0.1], &mut room), Ok(Run { length: 2, rounded: 1 }));
    assert_eq!(room, [NOON, 8_640_000_000, 7]);
    let refused = RefusedRun { refusal: Refusal::OutOfRange, place: 1 };
    assert_eq!(days.read_wholes(&[0, i64::MAX], &mut room), Err(refused));
    let short = RefusedRun { refusal: Refusal::NoRoom, place: 0 };
    assert_eq!(days.read_wholes(&[0; 4], &mut room), Err(short));
    assert_eq!(room, [NOON, 8_640_000_000, 7]);
    assert_eq!(days.read_wholes(&[], &mut []), Ok(Run { length: 0, rounded: 0 }));
}

#[test]
fn datetime64_read() {
    if !are_exported(&["read_datetime64"]) {
        return;
    }
    let records: Vec<u8> = [1i64, -1].iter().flat_map(|number| number.to_be_bytes()).collect();
    let mut room = [7; 3];
    assert_eq!(datetime64::read(">M8[D]", &records, &mut room), Ok(2));
    assert_eq!(room, [2 * NOON, -2 * NOON, 7]);
    let refused = |refusal, place| Err(RefusedRun { refusal, place });
    assert_eq!(datetime64::read(">m8[D]", &records, &mut room), refused(Refusal::IllFormed, 0));
    assert_eq!(datetime64::read(">M8[D]", &records[1..], &mut room), refused(Refusal::PartRecord, 0));
    assert_eq!(datetime64::read(">M8[D]", &records, &mut room[..1]), refused(Refusal::NoRoom, 0));
    assert_eq!(datetime64::read("<M8[D]", &records, &mut room), refused(Refusal::OutOfRange, 0));
    assert_eq!(datetime64::read(">M8[ns]", &records, &mut room), refused(Refusal::Inexact, 0));
    let not_a_time = [[0; 8], i64::MIN.to_le_bytes()].concat();
    assert_eq!(datetime64::read("<M8[Y]", &not_a_time, &mut room), refused(Refusal::NotATime, 1));
    assert_eq!(room, [2 * NOON, -2 * NOON, 7]);
    assert_eq!(datetime64::read("<M8[as]", &[], &mut []), Ok(0));
}

#[test]
fn datetime64_written() {
    if !are_exported(&["write_datetime64"]) {
        return;
    }
    let mut room = [7; 2 * datetime64::RECORD + 1];
    assert_eq!(datetime64::write("<M8[h]", &[NOON, 0], &mut room), Ok(2));
    assert_eq!(room, [12, 0, 0, 0, 0, 0, 0, 0, 0, 0, 0, 0, 0, 0, 0, 0, 7]);
    let refused = |refusal, place| Err(RefusedRun { refusal, place });
    assert_eq!(datetime64::write("<M8[h]", &[0, 1], &mut room), refused(Refusal::Inexact, 1));
    assert_eq!(datetime64::write("<M8[h]", &[NOON, i64::MAX], &mut room), refused(Refusal::OutOfRange, 1));
    assert_eq!(datetime64::write("<M8[h]", &[0; 3], &mut room), refused(Refusal::NoRoom, 0));
    assert_eq!(datetime64::write("<M8[2h]", &[0], &mut room), refused(Refusal::IllFormed, 0));
    assert_eq!(room[0], 12);
}

/// The list of source document 003, which ends with 2009, and that of today.
fn leap_seconds(records: usize) -> LeapSeconds {
    LeapSeconds::new(&include_bytes!("../../../data/leap_seconds_2017.bin")[..16 * records]).unwrap()
}

const LEAP_SECOND: UtcFields =
    UtcFields { year: 2016, month: 12, day: 31, hour: 23, minute: 59, second: 60, nanosecond: 0 };

#[test]
fn tt2000_read() {
    if !are_exported(&["read_tt2000"]) {
        return;
    }
    let today = leap_seconds(28);
    let shown = |list: &LeapSeconds, tt2000| list.read(tt2000).map(|fields| fields.to_string());
    for list in [&today, &leap_seconds(25)] {
        assert_eq!(shown(list, 0).as_deref(), Ok("2000-01-01T11:58:55.816000000Z"));
        assert_eq!(shown(list, 284_083_266_184_000_000).as_deref(), Ok("2009-01-01T12:00:00.000000000Z"));
        assert_eq!(list.read(i64::MIN), Err(Refusal::Before1972));
    }
    // source document 003 says 08.670775807, for which its list would have to count 36 and not 34
    assert_eq!(shown(&leap_seconds(25), i64::MAX).as_deref(), Ok("2292-04-11T11:46:10.670775807Z"));
    assert_eq!(shown(&leap_seconds(27), i64::MAX).as_deref(), Ok("2292-04-11T11:46:08.670775807Z"));
    assert_eq!(today.read(536_500_868_184_000_000), Ok(LEAP_SECOND));
    let later =
        [184_000_000, 1_183_999_999, 1_184_000_000].map(|by| shown(&today, 536_500_868_000_000_000 + by).unwrap());
    assert_eq!(
        later,
        ["2016-12-31T23:59:60.000000000Z", "2016-12-31T23:59:60.999999999Z", "2017-01-01T00:00:00.000000000Z"]
    );
}

#[test]
fn tt2000_written() {
    if !are_exported(&["read_tt2000", "write_tt2000"]) {
        return;
    }
    let today = leap_seconds(28);
    assert_eq!(today.write(LEAP_SECOND), Ok(536_500_868_184_000_000));
    for (fields, refusal) in [
        (UtcFields { day: 30, ..LEAP_SECOND }, Refusal::ImpossibleField),
        (UtcFields { hour: 24, ..LEAP_SECOND }, Refusal::ImpossibleField),
        (UtcFields { month: 2, day: 30, second: 59, ..LEAP_SECOND }, Refusal::MissingDate),
        (UtcFields { year: 1971, second: 59, ..LEAP_SECOND }, Refusal::Before1972),
        (UtcFields { year: i64::MAX, second: 59, ..LEAP_SECOND }, Refusal::OutOfRange),
    ] {
        assert_eq!(today.write(fields), Err(refusal), "{fields}");
    }
    assert_eq!(leap_seconds(27).write(LEAP_SECOND), Err(Refusal::ImpossibleField));
}

#[test]
fn tt2000_runs() {
    if !are_exported(&["read_tt2000", "write_tt2000"]) {
        return;
    }
    let today = leap_seconds(28);
    let numbers = [0, 536_500_868_184_000_000, i64::MAX];
    let fields = today.read_run(&numbers).unwrap();
    assert_eq!(fields[1], LEAP_SECOND);
    assert_eq!(today.write_run(&fields).as_deref(), Ok(&numbers[..]));
    assert_eq!((today.read_run(&[]), today.write_run(&[])), (Ok(vec![]), Ok(vec![])));
    let refused = |refusal, place| Err(RefusedRun { refusal, place });
    assert_eq!(today.read_run(&[0, 0, i64::MIN, i64::MIN]).map(|_| ()), refused(Refusal::Before1972, 2));
    let late = UtcFields { year: 2017, ..LEAP_SECOND };
    assert_eq!(today.write_run(&[LEAP_SECOND, late]).map(|_| ()), refused(Refusal::ImpossibleField, 1));
}

#[test]
fn bad_leap_seconds() {
    if !are_exported(&["read_tt2000"]) {
        return;
    }
    let records = leap_seconds(28).records().to_vec();
    for bad in [&[], &records[..15], &records[16..], &records[1..], &records.repeat(2)] {
        assert_eq!(LeapSeconds::new(bad), Err(Refusal::BadLeapSeconds));
    }
}
