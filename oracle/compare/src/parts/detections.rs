//! Detections: our program replay against the Rust, each beside one track.

use cases::detections::{DetectionReply, DetectionsCase};
use replay::detections;
use trials::Part;

pub struct DetectionsPart;

impl Part for DetectionsPart {
    const NAME: &'static str = "detections";
    const WHAT: &'static str = "checks, pair rules and birth distances against the Rust's";
    const COUNT: u64 = 1_000_000;
    const BRIEF: u64 = 20_000;

    type Case = DetectionsCase;

    fn ours(case: &DetectionsCase) -> Result<Vec<DetectionReply>, u32> {
        let answers = replay::answers(&detections::calls(case), detections::answer_lines(case));
        detections::replies(&answers)
    }
}
