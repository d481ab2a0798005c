//! The whole state of a tracker, private fields included. Numbers of binary64 are given by their bits.

use super::lifecycle::LifecycleRecord;
use super::shown::Shown;
use crate::tracker::Cartesian3DTracker;

#[derive(Clone, Debug, PartialEq, Eq)]
pub struct TrackerState {
    pub next_track_id: u64,
    pub last_time: Option<i64>,
    /// Sensor and sequence, by sensor.
    pub last_sequence: Vec<(u32, u64)>,
    pub tracks: Vec<TrackState>,
    pub birth_candidates: Vec<CandidateState>,
}

#[derive(Clone, Debug, PartialEq, Eq)]
pub struct TrackState {
    pub id: u64,
    pub state: Vec<u64>,
    /// Row by row.
    pub covariance: Vec<u64>,
    pub lifecycle: LifecycleRecord,
    pub class_label: Option<u32>,
    /// Label and confidence.
    pub class_prior: Option<(u32, u64)>,
    pub state_timestamp: i64,
    pub last_update_sensor: Option<u32>,
    pub contributing_sensors: Vec<u32>,
    pub updated_this_batch: bool,
}

#[derive(Clone, Debug, PartialEq, Eq)]
pub struct CandidateState {
    pub position: Vec<u64>,
    pub last_seen: i64,
    pub sightings: u32,
}

impl TrackerState {
    pub(super) fn of(tracker: &Cartesian3DTracker) -> Self {
        let text = format!("{tracker:?}");
        let shown = Shown::read(&text);
        let sequence = |(sensor, last): &(Shown, Shown)| (sensor.inner().parse(), last.parse());
        let last_time = shown.field("last_time").option();
        TrackerState {
            next_track_id: shown.field("next_track_id").parse(),
            last_time: last_time.map(|time| time.inner().parse()),
            last_sequence: shown
                .field("last_sequence")
                .map()
                .iter()
                .map(sequence)
                .collect(),
            tracks: shown
                .field("tracks")
                .list()
                .iter()
                .map(TrackState::of)
                .collect(),
            birth_candidates: shown
                .field("birth_candidates")
                .list()
                .iter()
                .map(CandidateState::of)
                .collect(),
        }
    }
}

impl TrackState {
    fn of(shown: &Shown) -> Self {
        let filter = shown.field("filter");
        let wrapped = |name: &str| shown.field(name).option().map(|some| some.inner().parse());
        let sensors = shown.field("contributing_sensors").list();
        TrackState {
            id: shown.field("id").inner().parse(),
            state: matrix_bits(filter.field("state")),
            covariance: matrix_bits(filter.field("covariance")),
            lifecycle: LifecycleRecord::of(shown.field("lifecycle")),
            class_label: wrapped("class_label"),
            class_prior: shown.field("class_prior").option().map(prior),
            state_timestamp: shown.field("state_timestamp").inner().parse(),
            last_update_sensor: wrapped("last_update_sensor"),
            contributing_sensors: sensors
                .iter()
                .map(|sensor| sensor.inner().parse())
                .collect(),
            updated_this_batch: shown.field("updated_this_batch").parse(),
        }
    }
}

impl CandidateState {
    fn of(shown: &Shown) -> Self {
        CandidateState {
            position: matrix_bits(shown.field("position")),
            last_seen: shown.field("last_seen").inner().parse(),
            sightings: shown.field("sightings").parse(),
        }
    }
}

/// A confidence is finite, and Rust's text of a finite number reads back as the same bits.
fn prior(shown: &Shown) -> (u32, u64) {
    let confidence: f64 = shown.field("confidence").parse();
    (shown.field("label").inner().parse(), confidence.to_bits())
}

/// The stand-in matrix shows its numbers as bits.
fn matrix_bits(shown: &Shown) -> Vec<u64> {
    let bits = |word: &Shown| u64::from_str_radix(word.word(), 16).expect("bits");
    shown.list().iter().map(bits).collect()
}
