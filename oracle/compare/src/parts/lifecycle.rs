//! The lifecycle: our program replay against the Rust, over sequences of calls.

use cases::lifecycle::{LifecycleCase, StepReply};
use replay::lives;
use trials::Part;

pub struct LifecyclePart;

impl Part for LifecyclePart {
    const NAME: &'static str = "lifecycle";
    const WHAT: &'static str = "lifecycles by calls against the Rust's";
    const COUNT: u64 = 1_000_000;
    const BRIEF: u64 = 50_000;

    type Case = LifecycleCase;

    fn ours(case: &LifecycleCase) -> Vec<StepReply> {
        // The new life is answered too, before the steps.
        let answers = replay::answers(&lives::calls(case), 1 + case.steps.len());
        lives::replies(case, &answers[1..])
    }
}
