//! Faults in TT2000, in the list of leap seconds and in what is read or written with it. Those of the list may be in either call.

use super::chosen;
use answers::{CUTOVER_1582, Date, Tt2000Answer, UtcFields, UtcFieldsAnswer};
use second::boundary::{day_number_of_date, fields_of, read_tt2000, write_tt2000};

const RECORD: usize = 16;
const MOST_RECORDS: usize = 64;
const FIRST: (i64, i64) = (730, 10);
const BAD_LIST: u32 = 14;
const SECOND: i64 = 1_000_000_000;
const PROLEPTIC_GREGORIAN: u32 = 1;

fn pairs(list: &[u8]) -> Vec<(i64, i64)> {
    let number = |bytes: &[u8]| i64::from_le_bytes(bytes.try_into().expect("eight bytes"));
    list.chunks_exact(RECORD).map(|record| (number(&record[..8]), number(&record[8..]))).collect()
}

fn bytes(pairs: Vec<(i64, i64)>) -> Vec<u8> {
    pairs.into_iter().flat_map(|(day, count)| [day.to_le_bytes(), count.to_le_bytes()]).flatten().collect()
}

fn is_bad(list: &[u8]) -> bool {
    read_tt2000(list, 0).number == BAD_LIST
}

/// The pairs as if the first were that of 1972, and the others counted on from it.
fn with_first(pairs: Vec<(i64, i64)>) -> Vec<(i64, i64)> {
    let Some(&(_, first)) = pairs.first() else {
        return pairs;
    };
    let counted = |(day, count): (i64, i64)| (day, count.wrapping_sub(first).wrapping_add(FIRST.1));
    [FIRST].into_iter().chain(pairs.into_iter().skip(1).map(counted)).collect()
}

/// The pairs with each day at least one after that before it.
fn with_rising_days(pairs: Vec<(i64, i64)>) -> Vec<(i64, i64)> {
    let rise = |last: &mut i64, (day, count): (i64, i64)| {
        *last = day.max(last.saturating_add(1));
        Some((*last, count))
    };
    pairs.into_iter().scan(FIRST.0 - 1, rise).collect()
}

/// The list as a call with a fault takes it.
fn seen(call: &str, list: &[u8]) -> Vec<u8> {
    let fault = chosen().strip_prefix(call).unwrap_or_default();
    let is_whole = list.len().is_multiple_of(RECORD);
    let is_last_day = |list: &[u8]| pairs(list).last().is_some_and(|&(day, _)| day == i64::MAX);
    match fault {
        "_empty_list_taken" if list.is_empty() => bytes(vec![FIRST]),
        "_part_of_a_record_taken" => list[..list.len() / RECORD * RECORD].to_vec(),
        "_65_records_taken" if list.len() == RECORD * (MOST_RECORDS + 1) => list[..RECORD * MOST_RECORDS].to_vec(),
        "_64_records_refused" if list.len() == RECORD * MOST_RECORDS => vec![],
        "_greatest_day_refused" if is_last_day(list) => vec![],
        "_first_record_not_tested" if is_whole => bytes(with_first(pairs(list))),
        "_counts_that_jump_taken" if is_whole => {
            bytes(pairs(list).into_iter().zip(FIRST.1..).map(|((day, _), count)| (day, count)).collect())
        }
        "_days_that_do_not_rise_taken" if is_whole => bytes(with_rising_days(pairs(list))),
        _ if is_bad(list) => list.to_vec(),
        "_leap_second_a_day_late" => {
            let late = |(day, count): (i64, i64)| (if day == FIRST.0 { day } else { day.saturating_add(1) }, count);
            bytes(pairs(list).into_iter().map(late).collect())
        }
        "_last_count_not_held" => list[..(list.len() - RECORD).max(RECORD)].to_vec(),
        _ => list.to_vec(),
    }
}

/// The reading, with the fault that is asked for.
pub fn read(list: &[u8], tt2000: i64) -> UtcFieldsAnswer {
    let right = read_tt2000(&seen("read_tt2000", list), tt2000);
    let at = |number: i64| read_tt2000(list, number);
    let taken = |fields| UtcFieldsAnswer { number: 0, fields };
    let fields = right.fields;
    match (chosen(), right.number) {
        ("read_tt2000_15_before_14", BAD_LIST) if tt2000 == i64::MIN => UtcFieldsAnswer { number: 15, ..right },
        ("read_tt2000_32_184_subtracted", 0) => at(tt2000.saturating_add(64_368_000_000)),
        ("read_tt2000_second_60_as_59", 0) => taken(UtcFields { second: fields.second.min(59), ..fields }),
        ("read_tt2000_second_60_as_midnight", 0) if fields.second == 60 => at(tt2000 + SECOND),
        ("read_tt2000_to_the_microsecond", 0) => {
            taken(UtcFields { nanosecond: fields.nanosecond / 1000 * 1000, ..fields })
        }
        ("read_tt2000_before_1972_read", 15) => taken(with_first_count(tt2000)),
        ("read_tt2000_end_of_1971_read", 15) if with_first_count(tt2000).year == 1971 => {
            taken(with_first_count(tt2000))
        }
        ("read_tt2000_least_number_read", 15) if tt2000 == i64::MIN => taken(with_first_count(tt2000)),
        ("read_tt2000_least_number_as_10", 15) if tt2000 == i64::MIN => UtcFieldsAnswer { number: 10, ..right },
        _ => right,
    }
}

/// The fields as if the count of 1972 held before it too.
fn with_first_count(tt2000: i64) -> UtcFields {
    let from_1970 = (tt2000 as i128 - 42_184_000_000) / 1000 + 946_728_000_000_000;
    let shown = fields_of(PROLEPTIC_GREGORIAN, CUTOVER_1582, from_1970 as i64).fields;
    let answers::Fields { year, month, day, hour, minute, second, .. } = shown;
    UtcFields { year, month, day, hour, minute, second, nanosecond: 0 }
}

/// The writing, with the fault that is asked for.
pub fn write(list: &[u8], fields: UtcFields) -> Tt2000Answer {
    let right = write_tt2000(&seen("write_tt2000", list), fields);
    match chosen().strip_prefix("write_tt2000") {
        Some(fault) if right.number == 0 => written(fault, right, list, fields),
        Some(fault) => Tt2000Answer { number: told(fault, right.number, list, fields), ..right },
        None => right,
    }
}

/// What is written for good fields.
fn written(fault: &str, right: Tt2000Answer, list: &[u8], fields: UtcFields) -> Tt2000Answer {
    let of = |fields| write_tt2000(list, fields);
    match fault {
        "_second_60_refused" if fields.second == 60 => Tt2000Answer { number: 4, tt2000: 0 },
        "_second_60_as_59" => of(UtcFields { second: fields.second.min(59), ..fields }),
        "_second_60_as_midnight" if fields.second == 60 => Tt2000Answer { tt2000: right.tt2000 + SECOND, ..right },
        "_32_184_subtracted" => Tt2000Answer { tt2000: right.tt2000.saturating_sub(64_368_000_000), ..right },
        "_nanosecond_bounded_as_microsecond" if fields.nanosecond > 999_999 => Tt2000Answer { number: 4, tt2000: 0 },
        _ => right,
    }
}

/// The number for fields that are refused.
fn told(fault: &str, right: u32, list: &[u8], fields: UtcFields) -> u32 {
    let UtcFields { year, month, day, hour, minute, second, .. } = fields;
    let of = |fields| write_tt2000(list, fields).number;
    let midnight = UtcFields { hour: 0, minute: 0, second: 0, nanosecond: 0, ..fields };
    let is_second_60 = (hour, minute, second) == (23, 59, 60);
    let in_2000 = |day| day_number_of_date(PROLEPTIC_GREGORIAN, CUTOVER_1582, Date { year: 2000, month, day }).number;
    match (fault, right) {
        ("_4_before_14", BAD_LIST) if in_2000(day) == 4 => 4,
        ("_12_before_4", 4) if of(midnight) == 12 => 12,
        ("_second_60_of_a_missing_date_as_12", 4) if is_second_60 && of(midnight) == 12 => 12,
        ("_second_60_before_the_first_record", 4) if is_second_60 && (year, month, day) == (1971, 12, 31) => 15,
        ("_second_60_taken_everywhere", 4) if is_second_60 => of(UtcFields { second: 59, ..fields }),
        ("_second_60_at_any_hour", 4) if second == 60 => of(UtcFields { hour: 23, minute: 59, ..fields }),
        ("_year_past_9999_before_4", 4) if !(-9999..=9999).contains(&year) => 5,
        ("_year_past_9999_before_12", 12) if !(-9999..=9999).contains(&year) => 5,
        ("_year_past_9999_before_15", 15) if year < -9999 => 5,
        ("_15_before_4", 4) if year < 1972 => 15,
        ("_15_before_12", 12) if year < 1972 => 15,
        ("_5_before_4", 4) if year > 2292 => 5,
        ("_5_before_12", 12) if year > 2292 => 5,
        ("_5_before_15", 15) if year < 1707 => 5,
        ("_12_as_4", 12) => 4,
        ("_29_february_taken", 12) if (month, day) == (2, 29) => of(UtcFields { day: 28, ..fields }),
        ("_29_february_before_year_0_as_12", 15) if year < 0 && (month, day) == (2, 29) => 12,
        ("_29_february_of_far_years_as_12", 5) if year > 10_000 && (month, day) == (2, 29) => 12,
        ("_day_32_as_12", 4) if day == 32 && of(UtcFields { day: 1, ..fields }) != 4 => 12,
        ("_end_of_1971_written", 15) if (year, month, day) == (1971, 12, 31) => 0,
        ("_far_leap_second_as_4", 5) if second == 60 => 4,
        ("_wrapping", 5) if year == 2292 => 0,
        _ => right,
    }
}
