//! Lists of sensors by random recordings.

use cases::sensors::SensorsCase;
use inputs::Random;
use replay::sensors;
use trials::Case;

use crate::Recording;

/// The seed of the lists, and how many there are.
const SEED: u64 = 3;
const LISTS: usize = 40;

pub fn record(recording: &mut Recording) {
    let mut random = Random::new(SEED);
    for _ in 0..LISTS {
        let case = SensorsCase::random(&mut random);
        recording.calls.extend(sensors::calls(&case));
        recording.answers.extend(sensors::lines(&[]));
        for list in case.judged() {
            recording.answers.extend(sensors::lines(&list));
        }
    }
}
