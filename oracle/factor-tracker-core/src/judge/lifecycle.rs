//! The lifecycle of one track. Its record can only be reached from a new one by calls, so a comparison runs both
//! sides through the same calls.

use super::shown::Shown;
use crate::lifecycle::TrackLifecycle;
use crate::types::{Timestamp, TrackLifecycleState, TrackerConfig};

pub struct Lifecycle {
    rust: TrackLifecycle,
}

/// Every field of the Rust's record.
#[derive(Clone, Debug, PartialEq, Eq)]
pub struct LifecycleRecord {
    pub state: TrackLifecycleState,
    pub created_at: i64,
    pub last_observation_timestamp: Option<i64>,
    pub last_counted_timestamp: Option<i64>,
    pub observation_times_count: u32,
}

impl Lifecycle {
    pub fn new(created_at: i64) -> Self {
        Lifecycle {
            rust: TrackLifecycle::new(Timestamp::from_nanos(created_at)),
        }
    }

    pub fn register_observation(&mut self, timestamp: i64, config: &TrackerConfig) {
        let timestamp = Timestamp::from_nanos(timestamp);
        self.rust.register_observation(timestamp, config);
    }

    pub fn credit_observation_times(&mut self, count: u32, config: &TrackerConfig) {
        self.rust.credit_observation_times(count, config);
    }

    /// Whether the track is dropped.
    pub fn advance(&mut self, now: i64, config: &TrackerConfig) -> bool {
        self.rust.advance(Timestamp::from_nanos(now), config)
    }

    pub fn record(&self) -> LifecycleRecord {
        LifecycleRecord::of(&Shown::read(&format!("{:?}", self.rust)))
    }
}

impl LifecycleRecord {
    pub(super) fn of(shown: &Shown) -> Self {
        let time = |field: &str| shown.field(field).option().map(|time| time.inner().parse());
        LifecycleRecord {
            state: state_named(shown.field("state").word()),
            created_at: shown.field("created_at").inner().parse(),
            last_observation_timestamp: time("last_observation_timestamp"),
            last_counted_timestamp: time("last_counted_timestamp"),
            observation_times_count: shown.field("observation_times_count").parse(),
        }
    }
}

fn state_named(name: &str) -> TrackLifecycleState {
    match name {
        "Tentative" => TrackLifecycleState::Tentative,
        "Confirmed" => TrackLifecycleState::Confirmed,
        "Lost" => TrackLifecycleState::Lost,
        "Deleted" => TrackLifecycleState::Deleted,
        _ => panic!("no state {name}"),
    }
}
