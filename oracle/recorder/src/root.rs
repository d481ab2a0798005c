//! Roots at the edges and at random, four to a line.

use inputs::{roots, Random};
use replay::Line;

use crate::Recording;

/// The seed of the random patterns, and how many there are.
const SEED: u64 = 1;
const RANDOM: usize = 400;

/// The refusal of a NaN and of a number below zero. It is the pattern of no root.
const REFUSED: u64 = 9;

pub fn record(recording: &mut Recording) {
    let mut random = Random::new(SEED);
    let more = (0..RANDOM).map(|_| roots::any(&mut random));
    let patterns: Vec<u64> = roots::edges().into_iter().chain(more).collect();
    for four in patterns.chunks(4) {
        // The last line is filled up with zeros, whose root is zero.
        let numbers = [0, 1, 2, 3].map(|place| four.get(place).copied().unwrap_or(0));
        recording.calls.push(Line::new('Q', numbers));
        recording.answers.push(Line::new('Q', numbers.map(answer)));
    }
}

fn answer(bits: u64) -> u64 {
    let x = f64::from_bits(bits);
    match x >= 0.0 {
        true => x.sqrt().to_bits(),
        false => REFUSED,
    }
}

#[cfg(test)]
mod tests {
    use super::*;

    #[test]
    fn roots_and_refusals() {
        assert_eq!(answer(4.0_f64.to_bits()), 2.0_f64.to_bits());
        assert_eq!(answer(2.0_f64.to_bits()), 0x3FF6_A09E_667F_3BCD);
        assert_eq!(answer((-0.0_f64).to_bits()), (-0.0_f64).to_bits());
        assert_eq!(answer((-1.0_f64).to_bits()), REFUSED);
        assert_eq!(answer(f64::NAN.to_bits()), REFUSED);
        let mut recording = Recording::default();
        record(&mut recording);
        let answers = recording.answers.iter().flat_map(|line| line.numbers);
        assert!(answers.into_iter().any(|answer| answer == REFUSED));
    }
}
