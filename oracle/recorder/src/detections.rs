//! Detections beside a track: every worked case, and random ones.

use cases::detections::DetectionsCase;
use inputs::Random;
use replay::detections;
use trials::Case;

use crate::Recording;

/// The seed of the random tracks, and how many there are.
const SEED: u64 = 9;
const TRACKS: usize = 120;

pub fn record(recording: &mut Recording) {
    let mut random = Random::new(SEED);
    let tracks = (0..TRACKS).map(|_| DetectionsCase::random(&mut random));
    for mut case in DetectionsCase::fixed().into_iter().chain(tracks) {
        let replies = case.judged();
        if replies.is_err() {
            case.detections.clear();
        }
        recording.calls.extend(detections::calls(&case));
        recording.answers.extend(detections::lines(&case, &replies));
    }
}
