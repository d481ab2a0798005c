//! Exact fractions, from a binary64 and back by one rounding.

use crate::natural::Natural;

pub struct Fraction {
    negative: bool,
    above: Natural,
    below: Natural,
}

/// The digits and exponent of a finite number: its magnitude is digits × 2^exponent.
pub fn parts(x: f64) -> (u64, i32) {
    assert!(x.is_finite(), "only finite numbers are fractions");
    let exponent = (x.to_bits() >> 52 & 0x7FF) as i32;
    let mantissa = x.to_bits() & ((1 << 52) - 1);
    match exponent {
        0 => (mantissa, -1074),
        _ => (mantissa | 1 << 52, exponent - 1075),
    }
}

impl Fraction {
    pub fn of(x: f64) -> Self {
        let (digits, exponent) = parts(x);
        Fraction {
            negative: x.is_sign_negative(),
            ..Fraction::scaled(u128::from(digits), exponent)
        }
    }

    /// digits × 2^exponent.
    pub fn scaled(digits: u128, exponent: i32) -> Self {
        let shift = |up: bool| if up { exponent.unsigned_abs() } else { 0 };
        Fraction {
            negative: false,
            above: Natural::new(digits).shifted(shift(exponent > 0)),
            below: Natural::new(1).shifted(shift(exponent < 0)),
        }
    }

    pub fn plus(&self, other: &Fraction) -> Fraction {
        let a = self.above.times(&other.below);
        let b = other.above.times(&self.below);
        let below = self.below.times(&other.below);
        let (negative, above) = match (self.negative == other.negative, a >= b) {
            (true, _) => (self.negative, a.plus(&b)),
            (false, true) => (self.negative, a.minus(&b)),
            (false, false) => (other.negative, b.minus(&a)),
        };
        Fraction {
            negative,
            above,
            below,
        }
    }

    pub fn times(&self, other: &Fraction) -> Fraction {
        Fraction {
            negative: self.negative != other.negative,
            above: self.above.times(&other.above),
            below: self.below.times(&other.below),
        }
    }

    pub fn over(&self, other: &Fraction) -> Fraction {
        assert!(!other.above.is_zero(), "a divisor of zero");
        Fraction {
            negative: self.negative != other.negative,
            above: self.above.times(&other.below),
            below: self.below.times(&other.above),
        }
    }

    /// The nearest binary64, the even one of two; zero without a sign, and infinity from 2¹⁰²⁴ on.
    pub fn rounded(&self) -> f64 {
        if self.above.is_zero() {
            return 0.0;
        }
        let guess = self.above.bits() - self.below.bits() - 53;
        // The quotient has 53 or 54 digits by the guess; 54 are one too many.
        let exponent = match self.digits(guess).0 >> 53 {
            0 => guess.max(-1074),
            _ => (guess + 1).max(-1074),
        };
        let (digits, rest, divisor) = self.digits(exponent);
        let up = match rest.plus(&rest).cmp(&divisor) {
            std::cmp::Ordering::Less => 0,
            std::cmp::Ordering::Equal => digits & 1,
            std::cmp::Ordering::Greater => 1,
        };
        let magnitude = pattern(digits + up, exponent);
        f64::from_bits(magnitude | u64::from(self.negative) << 63)
    }

    /// The whole part of the magnitude / 2^exponent, what is left over, and of which divisor.
    fn digits(&self, exponent: i32) -> (u64, Natural, Natural) {
        let shift = exponent.unsigned_abs();
        let (above, below) = if exponent < 0 {
            (self.above.shifted(shift), self.below.clone())
        } else {
            (self.above.clone(), self.below.shifted(shift))
        };
        let (digits, rest) = above.divided(&below);
        (digits, rest, below)
    }
}

/// The bits of digits × 2^exponent, for at most 2⁵³ digits and an exponent from -1074. Digits that reach the next
/// power of two carry into the exponent by themselves.
fn pattern(digits: u64, exponent: i32) -> u64 {
    if digits < 1 << 52 {
        return digits;
    }
    let bits = ((exponent + 1074) as u64) << 52;
    (bits + digits).min(f64::INFINITY.to_bits())
}
