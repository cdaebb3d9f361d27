//! Whole numbers of any size, with the few operations that cross-multiplying needs.

use std::cmp::Ordering;

/// Digits to the base 2^32, lowest first, no leading zero digit.
#[derive(Clone, Debug, PartialEq, Eq)]
pub struct Natural {
    digits: Vec<u32>,
}

impl Natural {
    fn of_digits(mut digits: Vec<u32>) -> Natural {
        while digits.last() == Some(&0) {
            digits.pop();
        }
        Natural { digits }
    }

    pub fn add(&self, other: &Natural) -> Natural {
        let length = self.digits.len().max(other.digits.len()) + 1;
        let mut digits = Vec::with_capacity(length);
        let mut carry = 0;
        for index in 0..length {
            let sum = self.digit(index) + other.digit(index) + carry;
            digits.push(sum as u32);
            carry = sum >> 32;
        }
        Natural::of_digits(digits)
    }

    /// The distance between two numbers, whichever is larger.
    pub fn distance(&self, other: &Natural) -> Natural {
        let (large, small) = match self.cmp(other) {
            Ordering::Less => (other, self),
            _ => (self, other),
        };
        let mut digits = Vec::with_capacity(large.digits.len());
        let mut borrow = 0;
        for index in 0..large.digits.len() {
            let taken = small.digit(index) + borrow;
            let digit = large.digit(index);
            borrow = u64::from(digit < taken);
            digits.push((digit + (borrow << 32) - taken) as u32);
        }
        Natural::of_digits(digits)
    }

    pub fn times(&self, other: &Natural) -> Natural {
        let mut digits = vec![0; self.digits.len() + other.digits.len() + 1];
        for (index, &digit) in self.digits.iter().enumerate() {
            let mut carry = 0;
            for place in 0..=other.digits.len() {
                let at = &mut digits[index + place];
                let sum = u64::from(digit) * other.digit(place) + u64::from(*at) + carry;
                *at = sum as u32;
                carry = sum >> 32;
            }
        }
        Natural::of_digits(digits)
    }

    /// The number times 2^power.
    pub fn doubled(&self, power: u32) -> Natural {
        let mut digits = vec![0; (power / 32) as usize];
        digits.push(1 << (power % 32));
        self.times(&Natural::of_digits(digits))
    }

    fn digit(&self, index: usize) -> u64 {
        self.digits.get(index).copied().map_or(0, u64::from)
    }
}

impl From<u64> for Natural {
    fn from(number: u64) -> Natural {
        Natural::of_digits(vec![number as u32, (number >> 32) as u32])
    }
}

impl Ord for Natural {
    fn cmp(&self, other: &Natural) -> Ordering {
        let by_length = self.digits.len().cmp(&other.digits.len());
        by_length.then_with(|| self.digits.iter().rev().cmp(other.digits.iter().rev()))
    }
}

impl PartialOrd for Natural {
    fn partial_cmp(&self, other: &Natural) -> Option<Ordering> {
        Some(self.cmp(other))
    }
}
