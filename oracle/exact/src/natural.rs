//! Whole numbers of any length.

use std::cmp::Ordering;

/// Digits of 32 bits, the smallest first, with no zero at the top.
#[derive(Clone, Debug, PartialEq, Eq)]
pub struct Natural(Vec<u32>);

impl Natural {
    pub fn new(value: u128) -> Self {
        let digits = (0..4).map(|i| (value >> (32 * i)) as u32).collect();
        Natural(digits).trimmed()
    }

    pub fn is_zero(&self) -> bool {
        self.0.is_empty()
    }

    /// How many binary digits the number has.
    pub fn bits(&self) -> i32 {
        match self.0.last() {
            Some(top) => 32 * self.0.len() as i32 - top.leading_zeros() as i32,
            None => 0,
        }
    }

    pub fn plus(&self, other: &Natural) -> Natural {
        let length = self.0.len().max(other.0.len()) + 1;
        let mut carry = 0;
        let digit = |i| {
            let sum = self.digit(i) + other.digit(i) + carry;
            carry = sum >> 32;
            sum as u32
        };
        Natural((0..length).map(digit).collect()).trimmed()
    }

    /// `other` must not be the larger one.
    pub fn minus(&self, other: &Natural) -> Natural {
        let mut borrow = 0;
        let digit = |i| {
            let difference = (1 << 32) + self.digit(i) - other.digit(i) - borrow;
            borrow = 1 - (difference >> 32);
            difference as u32
        };
        Natural((0..self.0.len()).map(digit).collect()).trimmed()
    }

    pub fn times(&self, other: &Natural) -> Natural {
        let mut digits = vec![0_u32; self.0.len() + other.0.len()];
        for i in 0..self.0.len() {
            let mut carry = 0;
            for j in 0..other.0.len() {
                let sum = u64::from(digits[i + j]) + self.digit(i) * other.digit(j) + carry;
                digits[i + j] = sum as u32;
                carry = sum >> 32;
            }
            digits[i + other.0.len()] = carry as u32;
        }
        Natural(digits).trimmed()
    }

    pub fn shifted(&self, bits: u32) -> Natural {
        let mut digits = vec![0; (bits / 32) as usize];
        digits.extend(&self.0);
        Natural(digits).times(&Natural::new(1 << (bits % 32)))
    }

    /// The whole part of `self / divisor`, which must be below 2⁶⁰, and what is left over.
    pub fn divided(&self, divisor: &Natural) -> (u64, Natural) {
        let (mut quotient, mut rest) = (0, self.clone());
        for bit in (0..60).rev() {
            let part = divisor.shifted(bit);
            if part <= rest {
                rest = rest.minus(&part);
                quotient |= 1 << bit;
            }
        }
        (quotient, rest)
    }

    fn digit(&self, i: usize) -> u64 {
        self.0.get(i).copied().map_or(0, u64::from)
    }

    fn trimmed(mut self) -> Self {
        while self.0.last() == Some(&0) {
            self.0.pop();
        }
        self
    }
}

impl PartialOrd for Natural {
    fn partial_cmp(&self, other: &Natural) -> Option<Ordering> {
        Some(self.cmp(other))
    }
}

impl Ord for Natural {
    fn cmp(&self, other: &Natural) -> Ordering {
        let by_length = self.0.len().cmp(&other.0.len());
        by_length.then_with(|| self.0.iter().rev().cmp(other.0.iter().rev()))
    }
}
