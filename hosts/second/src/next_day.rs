//! The next-day rule, which gives day numbers their meaning (document 01, "Calendars").

use crate::calendar::{Calendar, Date, last_day_of_month};

/// `standard` and `julian` have no year 0.
fn year_after(calendar: Calendar, year: i64) -> i64 {
    match calendar {
        Calendar::Standard(_) | Calendar::Julian if year == -1 => 1,
        _ => year + 1,
    }
}

pub fn day_after(calendar: Calendar, date: Date) -> Date {
    let Date { year, month, day } = date;
    match calendar {
        Calendar::Standard(cutover) if date == cutover.last_kept => cutover.first,
        _ if day < last_day_of_month(calendar, date) => Date::new(year, month, day + 1),
        _ if month < 12 => Date::new(year, month + 1, 1),
        _ => Date::new(year_after(calendar, year), 1, 1),
    }
}
