//! Filters by random steps of every kind.

use cases::filter::FilterCase;
use inputs::Random;
use replay::filters;
use trials::Case;

use crate::Recording;

/// The seed of the filters, and how many there are.
const SEED: u64 = 4;
const FILTERS: usize = 330;

/// The most steps that a stored filter takes, so that the file stays small.
const STEPS: usize = 2;

pub fn record(recording: &mut Recording) {
    let mut random = Random::new(SEED);
    for _ in 0..FILTERS {
        let mut case = FilterCase::random(&mut random);
        case.steps.truncate(STEPS);
        let replies = case.judged();
        if replies[0].number != 0 {
            case.steps.clear();
        }
        recording.calls.extend(filters::calls(&case));
        recording.answers.extend(filters::lines(&case, &replies));
    }
}
