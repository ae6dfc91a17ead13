//! The whole count nearest to an exact time (document 01, "Numbers returned", on doubles).

use crate::dyadic::Dyadic;
use crate::integer::Integer;
use std::cmp::Ordering;

pub struct Nearest {
    pub count: Integer,
    pub exact: bool,
}

/// The count nearest to a time. Of two equally near, the one whose displacement from the reference is even.
pub fn nearest_count(time: &Dyadic, reference: i64) -> Nearest {
    let below = time.floor();
    let above = below.plus(&Integer::from(1));
    let past_below = time.parts_above(&below);
    let short_of_above = time.parts_of_one().minus(&past_below);
    let exact = past_below.is_zero();
    let displacement = below.minus(&Integer::from(reference as i128));
    let count = match past_below.cmp(&short_of_above) {
        Ordering::Less => below,
        Ordering::Greater => above,
        Ordering::Equal if displacement.is_even() => below,
        Ordering::Equal => above,
    };
    Nearest { count, exact }
}
