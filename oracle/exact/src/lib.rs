//! Sum, difference, product, quotient and root of finite binary64 numbers, worked out as exact fractions and rounded
//! once to the nearest, ties to even. It uses none of the machine's floating-point operations, so it can judge
//! them and every order of operations built from them.

mod fraction;
mod natural;

use fraction::Fraction;

pub fn add(a: f64, b: f64) -> f64 {
    // Only a sum of two zeros below zero is a zero below zero.
    if a == 0.0 && b == 0.0 {
        return signed(0.0, a.is_sign_negative() && b.is_sign_negative());
    }
    Fraction::of(a).plus(&Fraction::of(b)).rounded()
}

pub fn sub(a: f64, b: f64) -> f64 {
    add(a, negated(b))
}

pub fn mul(a: f64, b: f64) -> f64 {
    let product = Fraction::of(a).times(&Fraction::of(b)).rounded();
    signed(product, a.is_sign_negative() != b.is_sign_negative())
}

/// `b` must not be zero.
pub fn div(a: f64, b: f64) -> f64 {
    let quotient = Fraction::of(a).over(&Fraction::of(b)).rounded();
    signed(quotient, a.is_sign_negative() != b.is_sign_negative())
}

/// The root of a number above zero: the nearest 53 digits, found from the whole root of its digits.
pub fn root(a: f64) -> f64 {
    let (digits, exponent) = fraction::parts(a);
    // So many digits that the root has 63 of them, and an even exponent.
    let room = digits.leading_zeros() as i32 + 62;
    let shift = room - ((exponent - room) & 1);
    let square = u128::from(digits) << shift;
    let whole = whole_root(square);
    let half = (exponent - shift) / 2;
    // A digit behind the last one says whether the whole root is all there is.
    let sticky = u64::from(u128::from(whole) * u128::from(whole) != square);
    Fraction::scaled(2 * u128::from(whole) + u128::from(sticky), half - 1).rounded()
}

fn signed(magnitude: f64, negative: bool) -> f64 {
    let bits = magnitude.to_bits() & !(1 << 63);
    f64::from_bits(bits | u64::from(negative) << 63)
}

fn negated(x: f64) -> f64 {
    f64::from_bits(x.to_bits() ^ 1 << 63)
}

/// The largest whole number whose square is not above `square`.
fn whole_root(square: u128) -> u64 {
    let mut root = 0_u64;
    for bit in (0..64).rev() {
        let next = root | 1 << bit;
        if u128::from(next) * u128::from(next) <= square {
            root = next;
        }
    }
    root
}

#[cfg(test)]
mod tests;
