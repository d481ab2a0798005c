//! Sequences of calls on a tracker: the calls of the C interface against the Rust, answers, reports and whole states.

use cases::calls::{CallReply, CallsCase};
use ours::tracker;
use trials::Part;

pub struct TrackerPart;

impl Part for TrackerPart {
    const NAME: &'static str = "tracker";
    const WHAT: &'static str = "the tracker's calls, every answer and state, against the Rust's";
    const COUNT: u64 = 100_000;
    const BRIEF: u64 = 2_000;

    type Case = CallsCase;

    fn ours(case: &CallsCase) -> Vec<CallReply> {
        tracker::replies(case)
    }
}
