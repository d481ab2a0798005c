//! Lifecycles: the calls of a case, and its replies as lines and back.

use cases::lifecycle::{LifecycleCase, Step, StepReply};
use factor_tracker_core::judge::lifecycle::LifecycleRecord;
use factor_tracker_core::types::TrackLifecycleState;

use crate::Line;

/// What stands with the count: a last observation, a last counted time.
const OBSERVED: u64 = 1 << 32;
const COUNTED: u64 = 1 << 33;

const LETTERS: [(TrackLifecycleState, char); 4] = [
    (TrackLifecycleState::Tentative, 'T'),
    (TrackLifecycleState::Confirmed, 'C'),
    (TrackLifecycleState::Lost, 'L'),
    (TrackLifecycleState::Deleted, 'D'),
];

/// The settings, a new life, then the steps.
pub fn calls(case: &LifecycleCase) -> Vec<Line> {
    let settings = [
        case.tentative_timeout_ns as u64,
        case.confirmed_to_lost_ns as u64,
        case.lost_to_delete_ns as u64,
        u64::from(case.confirm_min_observation_times),
    ];
    let begin = [
        Line::new('G', settings),
        Line::of('N', case.created_at as u64),
    ];
    let step = |step: &Step| match *step {
        Step::Register(time) => Line::of('R', time as u64),
        Step::Credit(count) => Line::of('C', u64::from(count)),
        Step::Advance(time) => Line::of('A', time as u64),
    };
    begin
        .into_iter()
        .chain(case.steps.iter().map(step))
        .collect()
}

/// The line that a record is answered by.
pub fn line(record: &LifecycleRecord) -> Line {
    let letter = LETTERS.iter().find(|(state, _)| *state == record.state);
    let observed = record.last_observation_timestamp.map_or(0, |_| OBSERVED);
    let counted = record.last_counted_timestamp.map_or(0, |_| COUNTED);
    Line::new(
        letter.expect("each state has a letter").1,
        [
            record.created_at as u64,
            record.last_observation_timestamp.unwrap_or(0) as u64,
            record.last_counted_timestamp.unwrap_or(0) as u64,
            u64::from(record.observation_times_count) | observed | counted,
        ],
    )
}

/// The record that a line stands for.
pub fn record(line: &Line) -> LifecycleRecord {
    let state = LETTERS.iter().find(|(_, letter)| *letter == line.letter);
    let [created, observation, counted, count] = line.numbers;
    LifecycleRecord {
        state: state.expect("a state's letter").0,
        created_at: created as i64,
        last_observation_timestamp: (count & OBSERVED != 0).then_some(observation as i64),
        last_counted_timestamp: (count & COUNTED != 0).then_some(counted as i64),
        observation_times_count: count as u32,
    }
}

/// The replies to the steps, from the lines that answer them. A track is dropped when time moving on leaves it Deleted.
pub fn replies(case: &LifecycleCase, lines: &[Line]) -> Vec<StepReply> {
    let reply = |(step, line): (&Step, &Line)| {
        let record = record(line);
        let advanced = matches!(step, Step::Advance(_));
        let dropped = advanced.then_some(record.state == TrackLifecycleState::Deleted);
        StepReply { dropped, record }
    };
    case.steps.iter().zip(lines).map(reply).collect()
}

#[cfg(test)]
mod tests {
    use super::*;

    #[test]
    fn a_record_is_read_back() {
        let full = LifecycleRecord {
            state: TrackLifecycleState::Lost,
            created_at: i64::MIN,
            last_observation_timestamp: Some(-1),
            last_counted_timestamp: Some(i64::MAX),
            observation_times_count: u32::MAX,
        };
        let fresh = LifecycleRecord {
            state: TrackLifecycleState::Tentative,
            created_at: 5,
            last_observation_timestamp: None,
            last_counted_timestamp: None,
            observation_times_count: 0,
        };
        assert_eq!(record(&line(&full)), full);
        assert_eq!(record(&line(&fresh)), fresh);
        assert_eq!(line(&fresh).numbers, [5, 0, 0, 0]);
    }
}
