//! TT2000 and lists of leap seconds: document 02's values, those of source document 003, and the refusals in their order.

use answers::{CUTOVER_1582, Date, Tt2000Answer, UtcFields, UtcFieldsAnswer};
use second::boundary::{day_number_of_date, read_tt2000, write_tt2000};

const PUBLISHED: &[u8] = include_bytes!("../../../data/leap_seconds_2017.bin");
const PROLEPTIC_GREGORIAN: u32 = 1;
const SECOND: i64 = 1_000_000_000;

/// The days from which source document 003 adds a second each, after 1972-01-01.
const DAYS_OF_DOCUMENT_003: [(i64, u32); 24] = [
    (1972, 7),
    (1973, 1),
    (1974, 1),
    (1975, 1),
    (1976, 1),
    (1977, 1),
    (1978, 1),
    (1979, 1),
    (1980, 1),
    (1981, 7),
    (1982, 7),
    (1983, 7),
    (1985, 7),
    (1988, 1),
    (1990, 1),
    (1991, 1),
    (1992, 7),
    (1993, 7),
    (1994, 7),
    (1996, 1),
    (1997, 7),
    (1999, 1),
    (2006, 1),
    (2009, 1),
];

fn records(pairs: &[(i64, i64)]) -> Vec<u8> {
    pairs.iter().flat_map(|&(day, count)| [day.to_le_bytes(), count.to_le_bytes()]).flatten().collect()
}

/// A list with these days after the first.
fn list(days: &[i64]) -> Vec<u8> {
    let all = [&[730], days].concat();
    records(&all.into_iter().zip(10..).collect::<Vec<_>>())
}

fn list_of_document_003() -> Vec<u8> {
    let day = |(year, month)| day_number_of_date(PROLEPTIC_GREGORIAN, CUTOVER_1582, Date { year, month, day: 1 }).day;
    list(&DAYS_OF_DOCUMENT_003.map(day))
}

fn fields(year: i64, month: u32, day: u32, hour: u32, minute: u32, second: u32, nanosecond: u32) -> UtcFields {
    UtcFields { year, month, day, hour, minute, second, nanosecond }
}

/// That a number and fields are one another's.
#[track_caller]
fn same(list: &[u8], number: i64, fields: UtcFields) {
    assert_eq!(read_tt2000(list, number), UtcFieldsAnswer { number: 0, fields });
    assert_eq!(write_tt2000(list, fields), Tt2000Answer { number: 0, tt2000: number });
}

#[track_caller]
fn read_refused(number: u32, list: &[u8], tt2000: i64) {
    assert_eq!(read_tt2000(list, tt2000), UtcFieldsAnswer { number, ..Default::default() });
}

#[track_caller]
fn write_refused(number: u32, list: &[u8], fields: UtcFields) {
    assert_eq!(write_tt2000(list, fields), Tt2000Answer { number, tt2000: 0 }, "{fields}");
}

#[test]
fn published_list_begins_as_that_of_document_003() {
    let known = list_of_document_003();
    assert_eq!(known.len(), 25 * 16);
    assert_eq!(PUBLISHED.len(), 28 * 16);
    assert!(PUBLISHED.starts_with(&known));
}

#[test]
fn j2000() {
    for list in [PUBLISHED, &list_of_document_003()] {
        same(list, 0, fields(2000, 1, 1, 11, 58, 55, 816_000_000));
        same(list, 64_184_000_000, fields(2000, 1, 1, 12, 0, 0, 0));
    }
}

/// In 2009 the count is 34, so TT is 66.184 s ahead of UTC.
#[test]
fn year_2009() {
    let days =
        day_number_of_date(PROLEPTIC_GREGORIAN, CUTOVER_1582, Date { year: 2009, month: 1, day: 1 }).day - 10_957;
    let noon = days * 86_400 * SECOND;
    same(&list_of_document_003(), noon + 66_184_000_000, fields(2009, 1, 1, 12, 0, 0, 0));
    same(&list_of_document_003(), noon, fields(2009, 1, 1, 11, 58, 53, 816_000_000));
}

/// The fill value, the pad value and the start of the valid range of source document 003 lie before 1972.
#[test]
fn before_1972() {
    for number in [i64::MIN, i64::MIN + 1, i64::MIN + 2] {
        read_refused(15, PUBLISHED, number);
    }
    write_refused(15, PUBLISHED, fields(1707, 9, 22, 12, 13, 15, 145_224_194));
    let first = (730 - 10_957) * 86_400 * SECOND - 43_200 * SECOND + 42_184_000_000;
    same(PUBLISHED, first, fields(1972, 1, 1, 0, 0, 0, 0));
    read_refused(15, PUBLISHED, first - 1);
    write_refused(15, PUBLISHED, fields(1971, 12, 31, 23, 59, 59, 999_999_999));
    write_refused(15, PUBLISHED, fields(i64::MIN, 1, 1, 0, 0, 0, 0));
}

/// The end of the valid range. Source document 003 gives 11:46:08.670775807, which takes a count of 36; with the 34 of its own list the
/// greatest number is two seconds later.
#[test]
fn end_of_64_bits() {
    let end = |second| fields(2292, 4, 11, 11, 46, second, 670_775_807);
    same(&list_of_document_003(), i64::MAX, end(10));
    same(&PUBLISHED[..27 * 16], i64::MAX, end(8));
    same(PUBLISHED, i64::MAX, end(7));
    write_refused(5, PUBLISHED, UtcFields { nanosecond: 670_775_808, ..end(7) });
    write_refused(5, PUBLISHED, fields(2292, 4, 12, 0, 0, 0, 0));
    write_refused(5, PUBLISHED, fields(i64::MAX, 12, 31, 23, 59, 59, 999_999_999));
}

#[test]
fn leap_seconds() {
    for record in PUBLISHED.chunks(16).skip(1) {
        let day = i64::from_le_bytes(record[..8].try_into().unwrap());
        let count = i64::from_le_bytes(record[8..].try_into().unwrap());
        let midnight = (day - 10_957) * 86_400 * SECOND - 43_200 * SECOND + count * SECOND + 32_184_000_000;
        let (before, after) = (read_tt2000(PUBLISHED, midnight - 1).fields, read_tt2000(PUBLISHED, midnight).fields);
        assert!([(6, 30), (12, 31)].contains(&(before.month, before.day)), "{before}");
        let eve = |second, nanosecond| UtcFields { hour: 23, minute: 59, second, nanosecond, ..before };
        same(PUBLISHED, midnight - SECOND - 1, eve(59, 999_999_999));
        same(PUBLISHED, midnight - SECOND, eve(60, 0));
        same(PUBLISHED, midnight - 1, eve(60, 999_999_999));
        same(PUBLISHED, midnight, UtcFields { hour: 0, minute: 0, second: 0, nanosecond: 0, ..after });
    }
}

/// Leap seconds on consecutive days, and on the day after 1972-01-01.
#[test]
fn consecutive_days() {
    let list = list(&[731, 732, 733]);
    let first = write_tt2000(&list, fields(1972, 1, 1, 0, 0, 0, 0)).tt2000;
    for (days, day) in (0..3).zip(1..) {
        same(&list, first + (86_401 * days + 86_400) * SECOND, fields(1972, 1, day, 23, 59, 60, 0));
        same(&list, first + 86_401 * (days + 1) * SECOND, fields(1972, 1, day + 1, 0, 0, 0, 0));
    }
    write_refused(4, &list, fields(1972, 1, 4, 23, 59, 60, 0));
}

/// A leap second may be listed for a day that no TT2000 reaches.
#[test]
fn far_leap_seconds() {
    let far = list(&[2_932_897, i64::MAX]);
    write_refused(5, &far, fields(9999, 12, 31, 23, 59, 60, 0));
    write_refused(4, &far, fields(9999, 12, 31, 23, 58, 60, 0));
    write_refused(4, &far, fields(9999, 12, 30, 23, 59, 60, 0));
    let cycles = (i64::MAX - 1) / 146_097;
    let eve = (0..400).map(|year| 1970 + 400 * cycles + year);
    let is_eve = |&year: &i64| {
        (1..=12)
            .flat_map(|month| (1..=31).map(move |day| (month, day)))
            .any(|(month, day)| write_tt2000(&far, fields(year, month, day, 23, 59, 60, 0)).number == 5)
    };
    assert_eq!(eve.filter(is_eve).count(), 1);
}

#[test]
fn bad_lists() {
    let good = list(&[1000, 2000]);
    let bad = [
        vec![],
        good[..15].to_vec(),
        good[..47].to_vec(),
        [&good[..], &[0]].concat(),
        records(&[(731, 10)]),
        records(&[(730, 11)]),
        records(&[(730, -10)]),
        records(&[(730, 10), (730, 11)]),
        records(&[(730, 10), (729, 11)]),
        records(&[(730, 10), (i64::MIN, 11)]),
        records(&[(730, 10), (1000, 10)]),
        records(&[(730, 10), (1000, 12)]),
        records(&[(730, 10), (1000, 9)]),
        records(&[(730, 10), (1000, 11 + (1 << 32))]),
        records(&[(730, 10), (1000, 11), (999, 12)]),
        records(&[(1000, 11)]),
        list(&(731..795).collect::<Vec<i64>>()),
        (730..732).flat_map(|day: i64| [day.to_be_bytes(), 10i64.to_be_bytes()]).flatten().collect(),
    ];
    for list in bad {
        for number in [i64::MIN, 0, i64::MAX] {
            read_refused(14, &list, number);
        }
        for fields in
            [fields(2000, 1, 1, 0, 0, 0, 0), fields(2000, 13, 1, 0, 0, 60, 0), fields(2000, 2, 30, 0, 0, 0, 0)]
        {
            write_refused(14, &list, fields);
        }
    }
    for list in [&good[..], &good[..16], &list(&(731..794).collect::<Vec<i64>>()), &list(&[i64::MAX])] {
        assert_eq!(read_tt2000(list, 0).number, 0);
    }
}

/// Every field is tested before the date, the date before the times that are taken.
#[test]
fn order_of_writing() {
    let years = [i64::MIN, -10_000, 0, 1900, 1971, 2000, 2100, 10_000, i64::MAX];
    for (year, day) in years.into_iter().flat_map(|year| [(year, 28), (year, 30)]) {
        let of = fields(year, 2, day, 23, 59, 59, 999_999_999);
        for impossible in [
            UtcFields { month: 0, ..of },
            UtcFields { month: 13, ..of },
            UtcFields { day: 0, ..of },
            UtcFields { day: 32, ..of },
            UtcFields { hour: 24, ..of },
            UtcFields { minute: 60, ..of },
            UtcFields { second: 60, ..of },
            UtcFields { second: 61, ..of },
            UtcFields { nanosecond: 1_000_000_000, ..of },
            UtcFields { nanosecond: u32::MAX, ..of },
        ] {
            write_refused(4, PUBLISHED, impossible);
        }
        write_refused(12, PUBLISHED, UtcFields { day: 30, ..of });
        write_refused(12, PUBLISHED, UtcFields { day: 31, month: 4, ..of });
    }
    write_refused(12, PUBLISHED, fields(i64::MAX, 2, 29, 0, 0, 0, 0));
    write_refused(15, PUBLISHED, fields(i64::MIN, 2, 29, 0, 0, 0, 0));
    write_refused(12, PUBLISHED, fields(1900, 2, 29, 0, 0, 0, 0));
    write_refused(5, PUBLISHED, fields(10_000, 2, 29, 0, 0, 0, 0));
}

/// Second 60 is 4 wherever no leap second is, in a day that does not exist too.
#[test]
fn second_60() {
    let leap_second = fields(2016, 12, 31, 23, 59, 60, 999_999_999);
    assert_eq!(write_tt2000(PUBLISHED, leap_second).number, 0);
    for other in [
        UtcFields { hour: 22, ..leap_second },
        UtcFields { minute: 58, ..leap_second },
        UtcFields { second: 61, ..leap_second },
        UtcFields { day: 30, ..leap_second },
        UtcFields { year: 2017, ..leap_second },
        UtcFields { month: 6, day: 30, ..leap_second },
        UtcFields { month: 6, day: 31, ..leap_second },
        UtcFields { nanosecond: 1_000_000_000, ..leap_second },
        fields(1971, 12, 31, 23, 59, 60, 0),
        fields(2017, 1, 1, 0, 0, 60, 0),
    ] {
        write_refused(4, PUBLISHED, other);
    }
    write_refused(4, &PUBLISHED[..27 * 16], leap_second);
}
