//! Closed formulas between days and dates, as in the well-known days-to-civil algorithm: years begin in March, so that the
//! leap day comes last.

use answers::Date;

/// The date of a day of a year that begins in March.
fn of_march_year(year: i64, day: i64) -> Date {
    let month = (5 * day + 2) / 153;
    let of_month = day - (153 * month + 2) / 5 + 1;
    let month = if month < 10 { month + 3 } else { month - 9 };
    Date { year: year + (month <= 2) as i64, month: month as u32, day: of_month as u32 }
}

/// A date as a year that begins in March and the day in it.
fn march_year(date: Date) -> (i64, i64) {
    let month = date.month as i64;
    let shifted = if month > 2 { month - 3 } else { month + 9 };
    (date.year - (month <= 2) as i64, (153 * shifted + 2) / 5 + date.day as i64 - 1)
}

/// A year of a calendar without a year 0 in a count that has one: -1 is 0, -2 is -1.
pub fn counted(year: i64) -> i64 {
    if year < 0 { year + 1 } else { year }
}

/// The year of such a count.
pub fn year_of_count(count: i64) -> i64 {
    if count <= 0 { count - 1 } else { count }
}

/// Days here count from the March 1st of their calendar that comes before year 1.
pub fn gregorian_date(day: i64) -> Date {
    let era = day.div_euclid(146_097);
    let of_era = day.rem_euclid(146_097);
    let year = (of_era - of_era / 1460 + of_era / 36_524 - of_era / 146_096) / 365;
    of_march_year(era * 400 + year, of_era - (365 * year + year / 4 - year / 100))
}

/// Without a year 0.
pub fn julian_date(day: i64) -> Date {
    let era = day.div_euclid(1461);
    let of_era = day.rem_euclid(1461);
    let year = (of_era - of_era / 1460) / 365;
    let date = of_march_year(era * 4 + year, of_era - 365 * year);
    Date { year: year_of_count(date.year), ..date }
}

pub fn even_date(day: i64, length: i64) -> Date {
    of_march_year(day.div_euclid(length), day.rem_euclid(length))
}

pub fn gregorian_day(date: Date) -> i64 {
    let (year, day) = march_year(date);
    let era = year.div_euclid(400);
    let of_era = year.rem_euclid(400);
    era * 146_097 + of_era * 365 + of_era / 4 - of_era / 100 + day
}

pub fn julian_day(date: Date) -> i64 {
    let (year, day) = march_year(Date { year: counted(date.year), ..date });
    year * 365 + year.div_euclid(4) + day
}

pub fn even_day(date: Date, length: i64) -> i64 {
    let (year, day) = march_year(date);
    year * length + day
}
