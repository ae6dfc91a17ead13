//! Exact fractions whose denominator is a power of two; every finite double is one.

use crate::integer::Integer;

/// The numerator, halved so many times.
#[derive(Clone, Debug)]
pub struct Dyadic {
    pub numerator: Integer,
    pub halvings: usize,
}

/// Every whole double below this size is a whole 64-bit number.
const TWO_TO_53: f64 = 9_007_199_254_740_992.0;

/// A double with a fraction is doubled, which is exact, until it is whole. Answers how often, too.
fn doubled_until_whole(mut x: f64) -> (f64, usize) {
    let mut times = 0;
    while x != x.trunc() {
        x *= 2.0;
        times += 1;
    }
    (x, times)
}

/// A large double is halved, which is exact, until it fits a 64-bit number. Answers how often, too.
fn halved_until_small(mut x: f64) -> (f64, usize) {
    let mut times = 0;
    while x.abs() >= TWO_TO_53 {
        x /= 2.0;
        times += 1;
    }
    (x, times)
}

impl Dyadic {
    /// The exact value of a double; none where it is not finite.
    pub fn of_double(x: f64) -> Option<Dyadic> {
        if !x.is_finite() {
            return None;
        }
        let (whole, halvings) = doubled_until_whole(x);
        let (small, doublings) = halved_until_small(whole);
        let numerator = Integer::from(small as i64 as i128).doubled(doublings);
        Some(Dyadic { numerator, halvings })
    }

    /// This fraction times a whole number, and another whole number added.
    pub fn scaled_and_moved(&self, factor: i64, addend: i64) -> Dyadic {
        let product = self.numerator.times(&Integer::from(factor as i128));
        let moved = product.plus(&Integer::from(addend as i128).doubled(self.halvings));
        Dyadic { numerator: moved, halvings: self.halvings }
    }

    /// The greatest whole number not above this fraction.
    pub fn floor(&self) -> Integer {
        self.numerator.floor_halved(self.halvings)
    }

    /// How many parts, of which `parts_of_one` make one, this fraction lies above a whole number.
    pub fn parts_above(&self, whole: &Integer) -> Integer {
        self.numerator.minus(&whole.doubled(self.halvings))
    }

    pub fn parts_of_one(&self) -> Integer {
        Integer::from(1).doubled(self.halvings)
    }
}
