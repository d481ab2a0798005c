//! How a row is measured: the two sides in turn, many times, and the median of each.

use std::time::Instant;

/// Runs of each side.
pub const RUNS: usize = 101;

/// One row of the table: the same work done by ours and by theirs.
pub trait Row {
    const NAME: &'static str;
    /// What stands beside ours.
    const THEIRS: &'static str;

    /// The inputs that both sides get.
    fn new() -> Self;

    /// A run of each side over all inputs. The answer is the number of calls in it.
    fn ours(&self) -> u64;
    fn theirs(&self) -> u64;
}

/// Nanoseconds a call.
pub struct Measured {
    pub ours: f64,
    pub theirs: f64,
}

pub fn measure<R: Row>() -> Measured {
    let row = R::new();
    // The first run of each side fills the caches, and is not counted.
    row.ours();
    row.theirs();
    let (mut ours, mut theirs) = (Vec::new(), Vec::new());
    for _ in 0..RUNS {
        ours.push(nanoseconds_a_call(|| row.ours()));
        theirs.push(nanoseconds_a_call(|| row.theirs()));
    }
    Measured {
        ours: median(ours),
        theirs: median(theirs),
    }
}

fn nanoseconds_a_call(run: impl Fn() -> u64) -> f64 {
    let began = Instant::now();
    let calls = run();
    began.elapsed().as_nanos() as f64 / calls as f64
}

fn median(mut times: Vec<f64>) -> f64 {
    times.sort_by(f64::total_cmp);
    times[times.len() / 2]
}
