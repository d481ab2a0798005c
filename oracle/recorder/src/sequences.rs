//! Sequences of calls on a tracker: random ones, chosen so that together they meet every refusal, branch and limit.

use cases::calls::{Call, CallsCase};
use factor_tracker_core::judge::settings::SPOILERS;
use factor_tracker_core::tracker::Cartesian3DTrackerConfig;
use inputs::Random;
use replay::calls;
use trials::{Case, Counts};

use crate::Recording;

/// The seed of the sequences, how many are drawn and how many are stored.
const SEED: u64 = 15;
const DRAWN: usize = 6_000;
const STORED: usize = 220;

/// Calls of a sequence, beside the first, and most detections of one that meets nothing new.
const LENGTH: std::ops::RangeInclusive<usize> = 5..=40;
const DETECTIONS: usize = 16;

/// Each sequence has a tracker of its own; the first ones come after settings that are refused, which leave the tracker before.
pub fn record(recording: &mut Recording) {
    let spoilt = SPOILERS.iter().map(Some).chain(std::iter::repeat(None));
    for (case, spoil) in chosen().iter().zip(spoilt) {
        if let Some(spoil) = spoil {
            let mut settings = Cartesian3DTrackerConfig::default();
            spoil(&mut settings);
            add_new(recording, &refused(settings));
        }
        add_new(recording, case);
        let replies = case.judged();
        for (call, reply) in case.calls.iter().zip(&replies[1..]) {
            let (lines, answer) = calls::call(call, reply);
            recording.calls.extend(lines);
            recording.answers.push(answer);
        }
        let last = replies.last().and_then(|reply| reply.state.as_ref());
        let (line, answers) = calls::whole(last.expect("a state"));
        recording.calls.push(line);
        recording.answers.extend(answers);
    }
}

fn refused(settings: Cartesian3DTrackerConfig) -> CallsCase {
    CallsCase {
        settings,
        calls: Vec::new(),
    }
}

fn add_new(recording: &mut Recording, case: &CallsCase) {
    let (lines, answer) = calls::new(&case.settings, &case.judged()[0]);
    recording.calls.extend(lines);
    recording.answers.push(answer);
}

/// Each sequence that meets what none before it met, then small ones.
fn chosen() -> Vec<CallsCase> {
    let (mut random, mut met) = (Random::new(SEED), Counts::default());
    let (mut telling, mut others) = (Vec::new(), Vec::new());
    for _ in 0..DRAWN {
        let case = CallsCase::random(&mut random);
        if !LENGTH.contains(&case.calls.len()) {
            continue;
        }
        let mut counts = Counts::default();
        case.judged_counting(&mut counts);
        let new = |name: &&&str| counts.of(name) > 0 && met.of(name) == 0;
        if CallsCase::COUNTED.iter().filter(new).count() > 0 {
            let names = CallsCase::COUNTED.iter();
            names
                .filter(|name| counts.of(name) > 0)
                .for_each(|name| met.add(name));
            telling.push(case);
        } else if others.len() < STORED && detections(&case) <= DETECTIONS {
            others.push(case);
        }
    }
    others.truncate(STORED.saturating_sub(telling.len()));
    telling.extend(others);
    telling
}

fn detections(case: &CallsCase) -> usize {
    let count = |call: &Call| match call {
        Call::ProcessBatch(batch) => batch.observations.len(),
        _ => 0,
    };
    case.calls.iter().map(count).sum()
}

#[cfg(test)]
mod tests {
    use cases::calls::met::VELOCITY_GAIN;

    use super::*;

    #[test]
    fn everything_is_met() {
        let (cases, mut counts) = (chosen(), Counts::default());
        assert!(cases.len() >= 200);
        for case in &cases {
            assert!(LENGTH.contains(&case.calls.len()));
            case.judged_counting(&mut counts);
        }
        let settings = |name: &str| name.starts_with("new: field");
        let missing: Vec<_> = CallsCase::COUNTED
            .iter()
            .filter(|name| counts.of(name) == 0 && !settings(name) && **name != VELOCITY_GAIN)
            .collect();
        assert_eq!(missing, Vec::<&&str>::new());
    }

    /// Each sequence asks for its last state, and each call but those that load has an answer.
    #[test]
    fn calls_and_answers() {
        let mut recording = Recording::default();
        record(&mut recording);
        let asking = |letter: &char| "nmcbe".contains(*letter);
        let asked = recording
            .calls
            .iter()
            .map(|line| line.letter)
            .filter(asking);
        let told = recording
            .answers
            .iter()
            .map(|line| line.letter)
            .filter(|letter| *letter != 'w');
        assert!(asked.eq(told));
        let bad = |line: &&replay::Line| line.letter == 'n' && line.numbers[0] != 0;
        assert_eq!(recording.answers.iter().filter(bad).count(), SPOILERS.len());
    }
}
