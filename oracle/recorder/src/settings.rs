//! The default settings, settings at every edge, and random ones.

use cases::settings::SettingsCase;
use factor_tracker_core::tracker::Cartesian3DTrackerConfig;
use inputs::Random;
use replay::settings;
use trials::Case;

use crate::Recording;

/// The seed of the random settings, and how many there are.
const SEED: u64 = 5;
const SETTINGS: usize = 200;

pub fn record(recording: &mut Recording) {
    recording.calls.push(settings::default_call());
    recording
        .answers
        .extend(settings::lines(&Cartesian3DTrackerConfig::default()));
    for case in recorded() {
        recording.calls.extend(settings::calls(&case.0));
        recording.answers.push(settings::line(case.judged()));
    }
}

fn recorded() -> Vec<SettingsCase> {
    let mut random = Random::new(SEED);
    let more = (0..SETTINGS).map(|_| SettingsCase::random(&mut random));
    SettingsCase::fixed().into_iter().chain(more).collect()
}

#[cfg(test)]
mod tests {
    use std::collections::BTreeSet;

    use super::*;

    /// Every field is the first bad one somewhere, and some settings are accepted.
    #[test]
    fn every_field() {
        let found: BTreeSet<_> = recorded().iter().map(|case| case.judged()).collect();
        let wanted = (1..=17).map(Some).chain([None]).collect::<BTreeSet<_>>();
        assert_eq!(found, wanted);
    }
}
