//! The least total: the pairing of `pk_linear_assignment` against every pairing, and against flows where the table is wide.

use cases::least::LeastCase;
use ours::pikowhanu;
use trials::Part;

pub struct LeastPart;

impl Part for LeastPart {
    const NAME: &'static str = "least";
    const WHAT: &'static str = "totals of pk_linear_assignment against the least of all pairings";
    const COUNT: u64 = 1_000_000;
    const BRIEF: u64 = 50_000;

    type Case = LeastCase;

    fn ours(case: &LeastCase) -> Option<i64> {
        let given = pikowhanu::assignment_reply(&case.0).given.ok()?;
        case.total_of(&given)
    }
}
