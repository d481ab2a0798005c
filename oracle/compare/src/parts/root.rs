//! The root: `pk_root` against the machine's own.

use cases::root::{Root, RootReply};
use ours::pikowhanu;
use trials::Part;

pub struct RootPart;

impl Part for RootPart {
    const NAME: &'static str = "root";
    const WHAT: &'static str = "pk_root against the machine's square root";
    const COUNT: u64 = 100_000_000;
    const BRIEF: u64 = 20_000_000;

    type Case = Root;

    fn ours(case: &Root) -> RootReply {
        pikowhanu::root_reply(f64::from_bits(case.0))
    }
}
