//! The table of days against the day numbers that hosts/vectors.py finds year by year.

use second::calendar::{Calendar, Date, calendar_named};
use second::days::{date_of_day, day_of_date};

fn length(letter: u8) -> i64 {
    match letter {
        b'5' => 365,
        b'6' => 366,
        b'0' => 360,
        b'A' => 355,
        _ => panic!("no length of a year"),
    }
}

/// Each January 1st of a line, and the day before it.
fn agrees(calendar: Calendar, first: i64, start: i64, lengths: &[u8]) {
    let mut day = start;
    for (year, &letter) in (first..).zip(lengths) {
        let date = Date::new(year, 1, 1);
        assert_eq!(day_of_date(calendar, date), Some(day));
        assert_eq!(date_of_day(calendar, day as i128), Some(date));
        assert_ne!(date_of_day(calendar, day as i128 - 1).map(|date| date.year), Some(year));
        day += length(letter);
    }
}

#[test]
fn every_first_of_january() {
    let lines = include_str!("../../../crates/year_starts/stdout").lines();
    for line in lines {
        let words: Vec<&str> = line.split(' ').collect();
        let [name, first, start, lengths] = words[..] else { panic!("{line}") };
        let calendar = calendar_named(name.as_bytes()).unwrap();
        agrees(calendar, first.parse().unwrap(), start.parse().unwrap(), lengths.as_bytes());
    }
}
