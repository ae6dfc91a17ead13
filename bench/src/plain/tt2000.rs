//! TT2000 with a lent list of leap seconds: the list is tested, then searched from its end. Times count from 1972 in 64 bits without a sign.

use super::cutover::PROLEPTIC_GREGORIAN;
use super::{days, lent};
use answers::{Date, Tt2000Answer, UtcFields, UtcFieldsAnswer};

const RECORD: usize = 16;
const MOST_RECORDS: usize = 64;
const FIRST_DAY: i64 = 730;
const FIRST_COUNT: i64 = 10;
/// A day past every TT2000.
const FAR_DAY: i64 = 120_000;
const SECOND: u64 = 1_000_000_000;
const DAY: u64 = 86_400 * SECOND;
/// The TT2000 of 1972-01-01T00:00:00.
const START_OF_1972: i64 = -883_655_957_816_000_000;

type Records = [[u8; RECORD]];

fn numbers(record: &[u8; RECORD]) -> (i64, i64) {
    let [day, count] = [0, 8].map(|at| i64::from_le_bytes(record[at..at + 8].try_into().expect("eight bytes")));
    (day, count)
}

fn tested(list: &[u8]) -> Result<&Records, u32> {
    let (records, rest) = list.as_chunks();
    if !rest.is_empty() || records.is_empty() || records.len() > MOST_RECORDS {
        return Err(14);
    }
    let mut before = (FIRST_DAY - 1, FIRST_COUNT - 1);
    for record in records {
        let (day, count) = numbers(record);
        if day <= before.0 || count != before.1 + 1 {
            return Err(14);
        }
        before = (day, count);
    }
    if numbers(&records[0]).0 == FIRST_DAY { Ok(records) } else { Err(14) }
}

/// The nanoseconds that leap seconds add up to a record.
fn added(count: i64) -> u64 {
    (count - FIRST_COUNT) as u64 * SECOND
}

/// The place of the last record whose day does not begin after a time since 1972.
fn place_at(records: &Records, since: u64) -> usize {
    let begins = |record| {
        let (day, count) = numbers(record);
        day < FAR_DAY && (day - FIRST_DAY) as u64 * DAY + added(count) <= since
    };
    records.iter().rposition(begins).expect("the first record")
}

fn read(list: &[u8], tt2000: i64) -> Result<UtcFields, u32> {
    let records = tested(list)?;
    if tt2000 < START_OF_1972 {
        return Err(15);
    }
    let since = tt2000.wrapping_sub(START_OF_1972) as u64;
    let place = place_at(records, since);
    let without = since - added(numbers(&records[place]).1);
    let (day, time) = (FIRST_DAY + (without / DAY) as i64, without % DAY);
    if records.get(place + 1).is_some_and(|next| numbers(next).0 == day) {
        let nanosecond = time as u32;
        let Date { year, month, day } = days::date(PROLEPTIC_GREGORIAN, day - 1);
        return Ok(UtcFields { year, month, day, hour: 23, minute: 59, second: 60, nanosecond });
    }
    let Date { year, month, day } = days::date(PROLEPTIC_GREGORIAN, day);
    let (seconds, nanosecond) = ((time / SECOND) as u32, (time % SECOND) as u32);
    let (hour, minute, second) = (seconds / 3600, seconds / 60 % 60, seconds % 60);
    Ok(UtcFields { year, month, day, hour, minute, second, nanosecond })
}

/// Whether 23:59:60 of a date is a leap second: the days of one year stand for those of each 400th after it.
fn has_leap_second(records: &Records, date: Date) -> bool {
    let Date { year, .. } = date;
    let of_cycle = days::day(PROLEPTIC_GREGORIAN, Date { year: year.rem_euclid(400), ..date });
    let next = of_cycle as i128 + 1 + year.div_euclid(400) as i128 * 146_097;
    days::refusal(PROLEPTIC_GREGORIAN, date) == 0 && records[1..].iter().any(|record| numbers(record).0 as i128 == next)
}

fn write(list: &[u8], fields: UtcFields) -> Result<i64, u32> {
    let records = tested(list)?;
    let UtcFields { year, month, day, hour, minute, second, nanosecond } = fields;
    let date = Date { year, month, day };
    let is_leap_second = || (hour, minute, second) == (23, 59, 60) && has_leap_second(records, date);
    if hour > 23 || minute > 59 || nanosecond as u64 >= SECOND || second > 59 && !is_leap_second() {
        return Err(4);
    }
    match days::refusal(PROLEPTIC_GREGORIAN, date) {
        0 if year < 1972 => return Err(15),
        0 if year > 2292 => return Err(5),
        0 => {}
        number => return Err(number),
    }
    let day = days::day(PROLEPTIC_GREGORIAN, date);
    let last = records.iter().rfind(|record| numbers(record).0 <= day).expect("the first record");
    let seconds = (day - FIRST_DAY) as u64 * 86_400 + ((hour * 60 + minute) * 60 + second) as u64;
    let since = seconds * SECOND + nanosecond as u64 + added(numbers(last).1);
    START_OF_1972.checked_add_unsigned(since).ok_or(5)
}

/// # Safety
/// So many bytes are lent to be read.
#[inline(never)]
pub unsafe extern "C" fn read_tt2000(list: *const u8, list_len: usize, tt2000: i64) -> UtcFieldsAnswer {
    match read(unsafe { lent(list, list_len) }, tt2000) {
        Ok(fields) => UtcFieldsAnswer { number: 0, fields },
        Err(number) => UtcFieldsAnswer { number, ..Default::default() },
    }
}

/// # Safety
/// As of `read_tt2000`.
#[inline(never)]
pub unsafe extern "C" fn write_tt2000(list: *const u8, list_len: usize, fields: UtcFields) -> Tt2000Answer {
    match write(unsafe { lent(list, list_len) }, fields) {
        Ok(tt2000) => Tt2000Answer { number: 0, tt2000 },
        Err(number) => Tt2000Answer { number, tt2000: 0 },
    }
}
