//! Lifecycles by random calls.

use cases::lifecycle::LifecycleCase;
use factor_tracker_core::judge::lifecycle::Lifecycle;
use inputs::Random;
use replay::lives;
use trials::Case;

use crate::Recording;

/// The seed of the sequences, and how many there are.
const SEED: u64 = 2;
const SEQUENCES: usize = 300;

pub fn record(recording: &mut Recording) {
    let mut random = Random::new(SEED);
    for _ in 0..SEQUENCES {
        let case = LifecycleCase::random(&mut random);
        let fresh = Lifecycle::new(case.created_at).record();
        let replies = case.judged();
        let records = replies.iter().map(|reply| &reply.record);
        recording.calls.extend(lives::calls(&case));
        recording.answers.push(lives::line(&fresh));
        recording.answers.extend(records.map(lives::line));
    }
}
