//! The root beside the machine's own.

use std::hint::black_box;

use inputs::{roots, Random};
use ours::pikowhanu;

use crate::measure::Row;

const INPUTS: usize = 4096;
const PASSES: usize = 8;
const MACHINE: &str = "the machine's sqrt";

fn inputs(pattern: fn(&mut Random) -> u64) -> Vec<u64> {
    let mut random = Random::new(1);
    (0..INPUTS).map(|_| pattern(&mut random)).collect()
}

/// Each root on its own. Each answer passes through `black_box`, so that roots are neither dropped nor taken two
/// at a time, which the tracker has no use for.
fn each(inputs: &[u64], root: impl Fn(f64) -> f64) -> u64 {
    for _ in 0..PASSES {
        for bits in inputs {
            black_box(root(f64::from_bits(*bits)));
        }
    }
    (PASSES * inputs.len()) as u64
}

/// Each root after the one before: the input takes in the last answer under a mask that is zero, which the
/// compiler cannot know.
fn chain(inputs: &[u64], root: impl Fn(f64) -> f64) -> u64 {
    let mask = black_box(0_u64);
    let mut last = 0.0_f64;
    for _ in 0..PASSES {
        for bits in inputs {
            last = root(f64::from_bits(bits ^ (last.to_bits() & mask)));
        }
    }
    black_box(last);
    (PASSES * inputs.len()) as u64
}

/// Each root on its own, of numbers as the tracker has them.
pub struct Throughput {
    inputs: Vec<u64>,
}

impl Row for Throughput {
    const NAME: &'static str = "root, throughput";
    const THEIRS: &'static str = MACHINE;

    fn new() -> Self {
        let inputs = inputs(roots::everyday);
        Throughput { inputs }
    }

    fn ours(&self) -> u64 {
        each(&self.inputs, pikowhanu::root)
    }

    fn theirs(&self) -> u64 {
        each(&self.inputs, f64::sqrt)
    }
}

/// Each root after the one before, of numbers as the tracker has them.
pub struct Latency {
    inputs: Vec<u64>,
}

impl Row for Latency {
    const NAME: &'static str = "root, latency";
    const THEIRS: &'static str = MACHINE;

    fn new() -> Self {
        let inputs = inputs(roots::everyday);
        Latency { inputs }
    }

    fn ours(&self) -> u64 {
        chain(&self.inputs, pikowhanu::root)
    }

    fn theirs(&self) -> u64 {
        chain(&self.inputs, f64::sqrt)
    }
}

/// Each root on its own, of numbers of every size.
pub struct AnySize {
    inputs: Vec<u64>,
}

impl Row for AnySize {
    const NAME: &'static str = "root of any size, throughput";
    const THEIRS: &'static str = MACHINE;

    fn new() -> Self {
        let inputs = inputs(roots::finite);
        AnySize { inputs }
    }

    fn ours(&self) -> u64 {
        each(&self.inputs, pikowhanu::root)
    }

    fn theirs(&self) -> u64 {
        each(&self.inputs, f64::sqrt)
    }
}
