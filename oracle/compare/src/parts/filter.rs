//! The Kalman filter: our program replay against the Rust, over steps of every kind.

use cases::filter::{FilterCase, StepReply};
use replay::filters;
use trials::Part;

pub struct FilterPart;

impl Part for FilterPart {
    const NAME: &'static str = "filter";
    const WHAT: &'static str = "filters by calls against the Rust's";
    const COUNT: u64 = 1_000_000;
    const BRIEF: u64 = 20_000;

    type Case = FilterCase;

    fn ours(case: &FilterCase) -> Vec<StepReply> {
        // A filter that is refused leaves the one before it, on which the steps then run; they don't count.
        let answers = replay::answers(&filters::calls(case), filters::answer_lines(case));
        filters::replies(case, &answers)
    }
}
