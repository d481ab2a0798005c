//! Inputs of the root, as bit patterns of binary64: the edges, and random patterns of each class.

use crate::Random;

const MANTISSA: u64 = (1 << 52) - 1;
const INFINITY: u64 = 0x7FF << 52;
const SIGN: u64 = 1 << 63;

/// Whole numbers whose squares are exact: the first ones, and some that fill the 26 bits a root may have.
const EXACT_ROOTS: [u64; 12] = [
    1, 2, 3, 5, 7, 1_000, 46_341, 65_535, 94_906_265, 67_108_863, 67_108_862, 47_453_133,
];

/// Every edge, in a fixed order and each once: powers of two, ends of the ranges, squares, halfway points,
/// zeros, infinities, NaNs and numbers below zero.
pub fn edges() -> Vec<u64> {
    let mut patterns = specials();
    patterns.extend(powers_of_two().flat_map(with_neighbours));
    patterns.extend(exact_squares().flat_map(with_neighbours));
    let mut random = Random::new(2);
    for _ in 0..64 {
        patterns.extend(beside_halfway(&mut random));
    }
    let mut seen = std::collections::HashSet::new();
    patterns.retain(|pattern| seen.insert(*pattern));
    patterns
}

/// A random pattern. In each 16: 4 subnormal, 7 normal, 1 of everyday size, 1 beside a square, 2 beside a
/// halfway point, 1 of any bits at all, where every second one is negative and some are NaNs.
pub fn any(random: &mut Random) -> u64 {
    match random.below(16) {
        0..=3 => subnormal(random),
        4..=10 => normal(random),
        11 => everyday(random),
        12 => beside_square(random),
        13 | 14 => beside_halfway(random)[random.below(2) as usize],
        _ => anything(random),
    }
}

/// A normal number from 2⁻²⁰ up and below 2²⁰, as squared distances and variances of a shop floor are.
pub fn everyday(random: &mut Random) -> u64 {
    let exponent = 1023 - 20 + random.below(40);
    (exponent << 52) | (random.draw() & MANTISSA)
}

/// Any finite number above zero, for measuring: in each 16, 15 normal ones and 1 subnormal.
pub fn finite(random: &mut Random) -> u64 {
    match random.below(16) {
        0 => subnormal(random),
        _ => normal(random),
    }
}

fn specials() -> Vec<u64> {
    let magnitudes = [
        0,
        1,
        2,
        MANTISSA,
        MANTISSA + 1,
        1.0_f64.to_bits(),
        INFINITY - 1,
        INFINITY,
        INFINITY + 1,           // a signalling NaN
        INFINITY + (1 << 51),   // the quiet NaN
        INFINITY + 0xDEAD_BEEF, // NaNs with payloads
        INFINITY + (1 << 51) + 7,
        !SIGN,
    ];
    let negative = magnitudes.map(|magnitude| magnitude | SIGN);
    magnitudes.into_iter().chain(negative).collect()
}

/// Every power of two that is a binary64: the subnormal ones, then the normal ones.
fn powers_of_two() -> impl Iterator<Item = u64> {
    let subnormal = (0..52).map(|bit| 1 << bit);
    let normal = (1..0x7FF).map(|exponent| exponent << 52);
    subnormal.chain(normal)
}

fn exact_squares() -> impl Iterator<Item = u64> {
    let scales = [-480, -31, 0, 1, 13, 450];
    EXACT_ROOTS.into_iter().flat_map(move |root| {
        scales.map(|scale| {
            let root = root as f64 * 2.0_f64.powi(scale);
            (root * root).to_bits()
        })
    })
}

fn with_neighbours(pattern: u64) -> [u64; 3] {
    [pattern - 1, pattern, pattern + 1]
}

fn subnormal(random: &mut Random) -> u64 {
    let digits = 1 + random.below(52);
    (random.draw() & MANTISSA) >> (52 - digits)
}

fn normal(random: &mut Random) -> u64 {
    ((1 + random.below(0x7FE)) << 52) | (random.draw() & MANTISSA)
}

/// Half of these are negative; the exponent of all ones, for infinities and NaNs, is as likely as the rest.
fn anything(random: &mut Random) -> u64 {
    let bits = random.draw();
    if random.below(2) == 0 {
        bits | INFINITY
    } else {
        bits
    }
}

/// A square of up to 26 bits, or one or two last places beside it, times a power of four.
fn beside_square(random: &mut Random) -> u64 {
    let digits = 1 + random.below(26);
    let root = (1 + random.below(1 << digits)) as f64;
    let scale = 2.0_f64.powi(random.below(900) as i32 - 450);
    let square = (root * scale) * (root * scale);
    square.to_bits() - 2 + random.below(5)
}

/// The two patterns round the square of a number halfway between two roots: where a root is hardest to round.
fn beside_halfway(random: &mut Random) -> [u64; 2] {
    let q = u128::from((1 << 52) | (random.draw() & MANTISSA));
    let square = q * q + q;
    let digits = 128 - square.leading_zeros();
    let mantissa = (square >> (digits - 53)) as u64;
    // q stands for q / 2⁵², so that the square has 105 digits where it is below 2, and 106 where it is below 4.
    let exponent = 1023 + u64::from(digits - 105);
    let shift = 2 * random.below(500);
    let pattern =
        (((exponent + shift) << 52) | (mantissa & MANTISSA)) - ((random.below(2) * 500) << 52);
    [pattern, pattern + 1]
}

#[cfg(test)]
mod tests {
    use super::*;

    #[test]
    fn a_quarter_is_subnormal() {
        let mut random = Random::new(5);
        let subnormal = (0..160_000).filter(|_| any(&mut random) >> 52 == 0).count();
        assert!((39_000..41_500).contains(&subnormal), "{subnormal}");
    }

    #[test]
    fn halfway_patterns_enclose_a_halfway_point() {
        let mut random = Random::new(6);
        for _ in 0..10_000 {
            let [below, above] = beside_halfway(&mut random);
            let roots = [below, above].map(|p| f64::from_bits(p).sqrt().to_bits());
            assert_eq!(roots[0] + 1, roots[1], "{below:016X}");
        }
    }

    #[test]
    fn edges_hold_every_class_once() {
        let patterns = edges();
        let has = |test: fn(f64) -> bool| patterns.iter().any(|p| test(f64::from_bits(*p)));
        assert!(has(f64::is_nan) && has(f64::is_infinite) && has(f64::is_subnormal));
        assert!(has(|x| x < 0.0) && has(|x| x == f64::MAX) && has(|x| x == f64::MIN_POSITIVE));
        assert!(patterns.contains(&0) && patterns.contains(&SIGN));
        let mut sorted = patterns.clone();
        sorted.sort_unstable();
        sorted.dedup();
        assert_eq!(sorted.len(), patterns.len());
    }
}
