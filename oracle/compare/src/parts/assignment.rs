//! The assignment: `pk_linear_assignment` against the Rust.

use cases::assignment::{AssignmentCase, AssignmentReply};
use ours::pikowhanu;
use trials::Part;

pub struct AssignmentPart;

impl Part for AssignmentPart {
    const NAME: &'static str = "assignment";
    const WHAT: &'static str = "pk_linear_assignment against the Rust's linear_assignment";
    const COUNT: u64 = 3_000_000;
    const BRIEF: u64 = 200_000;

    type Case = AssignmentCase;

    fn ours(case: &AssignmentCase) -> AssignmentReply {
        pikowhanu::assignment_reply(&case.0)
    }
}
