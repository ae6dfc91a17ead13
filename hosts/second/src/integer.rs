//! Whole numbers of any size and either sign.

use crate::natural::Natural;

/// A size and a sign; zero is not negative.
#[derive(Clone, PartialEq, Eq, Debug)]
pub struct Integer {
    is_negative: bool,
    size: Natural,
}

impl From<i128> for Integer {
    fn from(n: i128) -> Integer {
        Integer { is_negative: n < 0, size: Natural::from(n.unsigned_abs()) }
    }
}

impl Integer {
    fn signed(is_negative: bool, size: Natural) -> Integer {
        Integer { is_negative: is_negative && !size.is_zero(), size }
    }

    pub fn is_even(&self) -> bool {
        self.size.is_even()
    }

    pub fn is_zero(&self) -> bool {
        self.size.is_zero()
    }

    pub fn negated(&self) -> Integer {
        Integer::signed(!self.is_negative, self.size.clone())
    }

    pub fn plus(&self, other: &Integer) -> Integer {
        if self.is_negative == other.is_negative {
            Integer::signed(self.is_negative, self.size.plus(&other.size))
        } else if self.size >= other.size {
            Integer::signed(self.is_negative, self.size.minus(&other.size))
        } else {
            Integer::signed(other.is_negative, other.size.minus(&self.size))
        }
    }

    pub fn minus(&self, other: &Integer) -> Integer {
        self.plus(&other.negated())
    }

    pub fn times(&self, other: &Integer) -> Integer {
        Integer::signed(self.is_negative != other.is_negative, self.size.times(&other.size))
    }

    /// This number times two, so many times.
    pub fn doubled(&self, times: usize) -> Integer {
        Integer::signed(self.is_negative, self.size.doubled(times))
    }

    /// The greatest whole number not above this one halved so many times.
    pub fn floor_halved(&self, times: usize) -> Integer {
        let toward_zero = Integer::signed(self.is_negative, self.size.halved(times));
        if self.is_negative && toward_zero.doubled(times) != *self {
            toward_zero.minus(&Integer::from(1))
        } else {
            toward_zero
        }
    }

    /// The number as a machine number, where its size has at most 127 bits.
    pub fn to_i128(&self) -> Option<i128> {
        let size = self.size.to_i128()?;
        Some(if self.is_negative { -size } else { size })
    }
}

impl PartialOrd for Integer {
    fn partial_cmp(&self, other: &Integer) -> Option<std::cmp::Ordering> {
        Some(self.cmp(other))
    }
}

impl Ord for Integer {
    fn cmp(&self, other: &Integer) -> std::cmp::Ordering {
        match (self.is_negative, other.is_negative) {
            (false, false) => self.size.cmp(&other.size),
            (true, true) => other.size.cmp(&self.size),
            (mine, others) => others.cmp(&mine),
        }
    }
}
