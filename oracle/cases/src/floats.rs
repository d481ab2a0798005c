//! Binary64 numbers for random cases.

use inputs::Random;

/// Numbers at which something changes.
const EDGES: [f64; 14] = [
    0.0,
    -0.0,
    1.0,
    -1.0,
    0.5,
    f64::EPSILON,
    f64::MIN_POSITIVE,
    5e-324,
    1e-200,
    1e154,
    1e200,
    f64::MAX,
    f64::INFINITY,
    f64::NAN,
];

/// An edge, of either sign.
pub fn edge(random: &mut Random) -> f64 {
    let x = EDGES[random.below(EDGES.len() as u64) as usize];
    if random.below(4) == 0 {
        -x
    } else {
        x
    }
}

/// A number from 0 up and below 1, of 53 digits.
pub fn unit(random: &mut Random) -> f64 {
    (random.draw() >> 11) as f64 / (1_u64 << 53) as f64
}

/// A number up to `limit` on either side of zero: often a whole one or one of few digits, so that sums and ties are
/// exact now and then.
pub fn within(random: &mut Random, limit: f64) -> f64 {
    let x = (2.0 * unit(random) - 1.0) * limit;
    match random.below(4) {
        0 => x.round(),
        1 => (x * 8.0).round() / 8.0,
        _ => x,
    }
}

/// A number above zero, of a size from 2⁻ᵉ to 2ᵉ.
pub fn positive(random: &mut Random, exponent: u64) -> f64 {
    let size = random.below(2 * exponent + 1) as i32 - exponent as i32;
    (1.0 + unit(random)) * 2.0_f64.powi(size)
}

/// Simpler numbers: each weighs less, so that no chain of them goes on for ever.
pub fn smaller(x: f64) -> Vec<f64> {
    let bits = x.to_bits();
    let digits = |kept: u32| f64::from_bits(bits >> (52 - kept) << (52 - kept));
    let near = [
        0.0,
        1.0,
        -x,
        x.trunc(),
        digits(0),
        digits(4),
        digits(20),
        x / 2.0,
        x * 2.0,
    ];
    let mut found: Vec<f64> = near
        .into_iter()
        .filter(|y| weight(*y) < weight(x))
        .collect();
    found.dedup_by_key(|y| y.to_bits());
    found
}

/// Zero weighs nothing; then one, then numbers by their digits, their distance from one and their sign.
fn weight(x: f64) -> u32 {
    let bits = x.to_bits();
    let (exponent, mantissa) = ((bits >> 52 & 0x7FF) as i32, bits & ((1 << 52) - 1));
    match bits {
        0 => 0,
        _ => {
            1 + (bits >> 63) as u32 + 2 * (mantissa.count_ones() + (exponent - 1023).unsigned_abs())
        }
    }
}
