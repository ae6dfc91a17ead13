//! The cutovers that `standard` may have (document 02, CR 8): both calendars are stepped together from 1582 on, which gives each Gregorian
//! date the Julian day before it, and whether it is allowed is seen by the dates that it would drop.

use crate::calendar::{Calendar, Date};
use crate::next_day::day_after;
use crate::refusal::Refusal;
use std::iter::successors;
use std::sync::OnceLock;

/// The last date that may be one.
const LAST: Date = Date::new(1923, 12, 31);

/// An allowed cutover.
#[derive(Clone, Copy, PartialEq, Eq, Debug)]
pub struct Cutover {
    /// The last day kept, a Julian date.
    pub last_kept: Date,
    /// The day after it, which is the first Gregorian date.
    pub first: Date,
    /// How many days it comes after that of 1582.
    pub days_later: usize,
}

/// That of document 01.
pub const OF_1582: Cutover =
    Cutover { last_kept: Date::new(1582, 10, 4), first: Date::new(1582, 10, 15), days_later: 0 };

impl Cutover {
    /// The cutover with this first Gregorian date.
    pub fn of_date(first: Date) -> Result<Cutover, Refusal> {
        let found = allowed().binary_search_by_key(&first, |cutover| cutover.first);
        found.map(|place| allowed()[place]).map_err(|_| Refusal::CutoverNotAllowed)
    }

    fn a_day_later(self) -> Cutover {
        Cutover {
            last_kept: day_after(Calendar::Julian, self.last_kept),
            first: day_after(Calendar::ProlepticGregorian, self.first),
            days_later: self.days_later + 1,
        }
    }

    /// The dates of the Julian calendar that are dropped.
    pub fn dropped(self) -> impl Iterator<Item = Date> {
        let julian = successors(Some(self.last_kept), |&date| Some(day_after(Calendar::Julian, date)));
        julian.skip(1).take_while(move |&date| date < self.first)
    }

    /// Whether the dropped dates lie in one month and leave its first day.
    fn is_allowed(self) -> bool {
        let month = |date: Date| (date.year, date.month);
        let first = self.dropped().next().expect("some date is dropped");
        self.dropped().all(|date| month(date) == month(first) && date.day != 1)
    }
}

/// All allowed cutovers in order.
pub fn allowed() -> &'static [Cutover] {
    static ALLOWED: OnceLock<Vec<Cutover>> = OnceLock::new();
    ALLOWED.get_or_init(|| {
        let all = successors(Some(OF_1582), |cutover| Some(cutover.a_day_later()));
        all.take_while(|cutover| cutover.first <= LAST).filter(|cutover| cutover.is_allowed()).collect()
    })
}
