//! A list of leap seconds (document 02, CR 6), and the days of UTC from its first record on, walked one by one: each begins as many
//! seconds after the one before it as that one has.

use crate::calendar::{Calendar, Date};
use crate::days::{date_of_day, day_of_date};
use crate::refusal::Refusal;
use std::cell::RefCell;
use std::collections::VecDeque;
use std::rc::Rc;

pub const CALENDAR: Calendar = Calendar::ProlepticGregorian;
pub const NANOSECONDS: i128 = 1_000_000_000;
/// The seconds of a day that has no leap second.
pub const DAY: i128 = 86_400;

const RECORD: usize = 16;
const MOST_RECORDS: usize = 64;
const MOST_KEPT: usize = 4;
/// TT less TAI, in milliseconds.
const TT_LESS_TAI: i128 = 32_184;

#[derive(Clone, Copy, PartialEq, Eq, Debug)]
struct Record {
    day: i64,
    count: i64,
}

const FIRST: Record = Record { day: 730, count: 10 };

impl Record {
    fn of_bytes(bytes: &[u8]) -> Record {
        let number = |bytes: &[u8]| bytes.iter().rev().fold(0, |number, &byte| number << 8 | byte as i64);
        let (day, count) = bytes.split_at(RECORD / 2);
        Record { day: number(day), count: number(count) }
    }

    fn is_followed_by(self, next: Record) -> bool {
        next.day > self.day && next.count == self.count + 1
    }
}

fn records(bytes: &[u8]) -> Result<Vec<Record>, Refusal> {
    let (whole, rest) = bytes.as_chunks::<RECORD>();
    let records: Vec<Record> = whole.iter().map(|bytes| Record::of_bytes(bytes)).collect();
    let is_good = rest.is_empty()
        && records.len() <= MOST_RECORDS
        && records.first() == Some(&FIRST)
        && records.windows(2).all(|pair| pair[0].is_followed_by(pair[1]));
    if is_good { Ok(records) } else { Err(Refusal::BadLeapSeconds) }
}

/// The date of a day from 1970 on: whole cycles of 400 years after that of one of the listed days.
fn far_date(day: i64) -> Date {
    let cycle = day_of_date(CALENDAR, Date::new(2370, 1, 1)).expect("a listed day");
    let date = date_of_day(CALENDAR, (day % cycle) as i128).expect("a listed day");
    Date { year: date.year + 400 * (day / cycle), ..date }
}

/// The TT2000 of the start of 1972 in UTC.
fn start_of_1972() -> i128 {
    let noon_of_2000 = day_of_date(CALENDAR, Date::new(2000, 1, 1)).expect("a listed day") as i128 * DAY + DAY / 2;
    let seconds = FIRST.day as i128 * DAY + FIRST.count as i128 - noon_of_2000;
    seconds * NANOSECONDS + TT_LESS_TAI * NANOSECONDS / 1000
}

pub struct LeapSeconds {
    /// The dates whose last second is 23:59:60.
    pub eves: Vec<Date>,
    /// The TT2000 of the start of each day from 1972-01-01 on.
    starts: Vec<i64>,
}

impl LeapSeconds {
    /// Of a good list.
    fn walked(records: &[Record]) -> LeapSeconds {
        let last_days: Vec<i64> = records[1..].iter().map(|record| record.day - 1).collect();
        let eves = last_days.iter().map(|&day| far_date(day)).collect();
        let mut leap_seconds = LeapSeconds { eves, starts: Vec::with_capacity(120_000) };
        let mut last_days = last_days.into_iter().peekable();
        let mut start = start_of_1972();
        for day in FIRST.day.. {
            let Ok(number) = i64::try_from(start) else { break };
            leap_seconds.starts.push(number);
            let has_leap_second = last_days.next_if_eq(&day).is_some();
            start += (DAY + has_leap_second as i128) * NANOSECONDS;
        }
        leap_seconds
    }

    /// The list of some bytes. The last few that were asked for are kept.
    pub fn listed(bytes: &[u8]) -> Result<Rc<LeapSeconds>, Refusal> {
        thread_local!(static KEPT: RefCell<VecDeque<(Vec<u8>, Rc<LeapSeconds>)>> = RefCell::default());
        KEPT.with_borrow_mut(|kept| {
            if let Some((_, listed)) = kept.iter().find(|(of, _)| of == bytes) {
                return Ok(listed.clone());
            }
            let walked = Rc::new(LeapSeconds::walked(&records(bytes)?));
            kept.push_front((bytes.to_vec(), walked.clone()));
            kept.truncate(MOST_KEPT);
            Ok(walked)
        })
    }

    /// The last day that does not begin after a number, and its start; none before 1972.
    pub fn day_at(&self, number: i64) -> Option<(i64, i64)> {
        let place = self.starts.partition_point(|&start| start <= number).checked_sub(1)?;
        Some((FIRST.day + place as i64, self.starts[place]))
    }

    /// The start of a day from 1972 on; none where it is past 64 bits.
    pub fn start_of(&self, day: i64) -> Option<i64> {
        self.starts.get(usize::try_from(day - FIRST.day).ok()?).copied()
    }
}
