//! Natural numbers of any size.

use std::cmp::Ordering;

/// Digits to the base 2^32, the lowest first; the last digit is not zero.
#[derive(Clone, PartialEq, Eq, Debug)]
pub struct Natural {
    digits: Vec<u32>,
}

impl From<u128> for Natural {
    fn from(n: u128) -> Natural {
        Natural::trimmed((0..4).map(|i| (n >> (32 * i)) as u32).collect())
    }
}

impl Natural {
    fn trimmed(mut digits: Vec<u32>) -> Natural {
        while digits.last() == Some(&0) {
            digits.pop();
        }
        Natural { digits }
    }

    fn digit(&self, i: usize) -> u64 {
        self.digits.get(i).copied().unwrap_or(0) as u64
    }

    pub fn is_zero(&self) -> bool {
        self.digits.is_empty()
    }

    pub fn is_even(&self) -> bool {
        self.digit(0).is_multiple_of(2)
    }

    pub fn plus(&self, other: &Natural) -> Natural {
        let size = self.digits.len().max(other.digits.len()) + 1;
        let mut digits = Vec::with_capacity(size);
        let mut carry = 0;
        for i in 0..size {
            let sum = self.digit(i) + other.digit(i) + carry;
            digits.push(sum as u32);
            carry = sum >> 32;
        }
        Natural::trimmed(digits)
    }

    /// The difference; `other` is not the greater one.
    pub fn minus(&self, other: &Natural) -> Natural {
        assert!(*self >= *other);
        let mut digits = Vec::with_capacity(self.digits.len());
        let mut borrow = 0;
        for i in 0..self.digits.len() {
            let lent = self.digit(i) + (1 << 32) - other.digit(i) - borrow;
            digits.push(lent as u32);
            borrow = 1 - (lent >> 32);
        }
        Natural::trimmed(digits)
    }

    fn times_digit(&self, factor: u32) -> Natural {
        let mut digits = Vec::with_capacity(self.digits.len() + 1);
        let mut carry = 0;
        for i in 0..self.digits.len() + 1 {
            let product = self.digit(i) * factor as u64 + carry;
            digits.push(product as u32);
            carry = product >> 32;
        }
        Natural::trimmed(digits)
    }

    pub fn times(&self, other: &Natural) -> Natural {
        let mut sum = Natural { digits: Vec::new() };
        for (i, &digit) in other.digits.iter().enumerate() {
            sum = sum.plus(&self.times_digit(digit).doubled(32 * i));
        }
        sum
    }

    /// This number times two, so many times.
    pub fn doubled(&self, times: usize) -> Natural {
        let (whole, part) = (times / 32, times % 32);
        let mut digits = vec![0; whole];
        let mut carry = 0;
        for i in 0..self.digits.len() + 1 {
            let wide = self.digit(i) << part | carry;
            digits.push(wide as u32);
            carry = wide >> 32;
        }
        Natural::trimmed(digits)
    }

    /// This number halved so many times, remainders dropped.
    pub fn halved(&self, times: usize) -> Natural {
        let (whole, part) = (times / 32, times % 32);
        let size = self.digits.len().saturating_sub(whole);
        let digit = |i| ((self.digit(i + whole) | self.digit(i + whole + 1) << 32) >> part) as u32;
        Natural::trimmed((0..size).map(digit).collect())
    }

    /// The number as a machine number, where it has at most 127 bits.
    pub fn to_i128(&self) -> Option<i128> {
        if self.digits.len() > 4 {
            return None;
        }
        let wide = (0..4).fold(0u128, |n, i| n | (self.digit(i) as u128) << (32 * i));
        i128::try_from(wide).ok()
    }
}

impl PartialOrd for Natural {
    fn partial_cmp(&self, other: &Natural) -> Option<Ordering> {
        Some(self.cmp(other))
    }
}

impl Ord for Natural {
    /// More digits are greater; of as many, the highest that differs decides.
    fn cmp(&self, other: &Natural) -> Ordering {
        let size = self.digits.len().cmp(&other.digits.len());
        size.then_with(|| self.digits.iter().rev().cmp(other.digits.iter().rev()))
    }
}
