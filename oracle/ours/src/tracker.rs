//! The tracker's calls, as include/pikowhanu.h declares them, over records of the same layout. A double stands in them by its bits,
//! so that two records are equal where all their bits are.

mod filled;
mod told;

use cases::calls::{Answer, Call, CallReply, CallsCase};
use factor_tracker_core::tracker::Cartesian3DTrackerConfig;
use factor_tracker_core::types::ObservationBatch3D;

/// A double by its bits.
pub type Double = u64;

#[repr(C)]
#[derive(Clone, Copy, Debug, PartialEq, Eq)]
pub struct PkFrame {
    pub bytes: [u8; 32],
    pub length: usize,
}

#[repr(C)]
#[derive(Clone, Copy, Debug, PartialEq, Eq)]
pub struct PkLifecycle {
    pub confirm_min_observation_times: u32,
    pub tentative_timeout_ns: i64,
    pub confirmed_to_lost_ns: i64,
    pub lost_to_delete_ns: i64,
}

#[repr(C)]
#[derive(Clone, Copy, Debug, PartialEq, Eq)]
pub struct PkSettings {
    pub lifecycle: PkLifecycle,
    pub max_contributing_sensors: usize,
    pub frame: PkFrame,
    pub accel_spectral_density: Double,
    pub initial_velocity_variance: Double,
    pub gate_squared_mahalanobis: Double,
    pub class_prior_penalty: Double,
    pub birth_candidate_radius_m: Double,
    pub birth_candidate_timeout_ns: i64,
    pub new_track_score_threshold: Double,
    pub recent_track_window_ns: i64,
    pub min_birth_distance_m: Double,
    pub velocity_measurement_std: Double,
    pub birth_persistence: u32,
    pub has_new_track_score_threshold: u32,
    pub has_recent_track_window: u32,
    pub has_min_birth_distance: u32,
    pub has_velocity_measurement_std: u32,
    pub has_birth_persistence: u32,
}

#[repr(C)]
#[derive(Clone, Copy, Debug, PartialEq, Eq)]
pub struct PkSensors {
    pub ids: [u32; 16],
    pub count: usize,
}

#[repr(C)]
#[derive(Clone, Copy, Debug, PartialEq, Eq)]
pub struct PkFilter {
    pub state: [Double; 6],
    pub covariance: [Double; 36],
}

#[repr(C)]
#[derive(Clone, Copy, Debug, PartialEq, Eq)]
pub struct PkTrack {
    pub id: u64,
    pub filter: PkFilter,
    pub created_at: i64,
    pub last_observation: i64,
    pub last_counted: i64,
    pub state_timestamp: i64,
    pub prior_confidence: Double,
    pub sensors: PkSensors,
    pub lifecycle: u32,
    pub has_last_observation: u32,
    pub has_last_counted: u32,
    pub observation_times: u32,
    pub has_class: u32,
    pub class_label: u32,
    pub has_prior: u32,
    pub prior_label: u32,
    pub has_last_sensor: u32,
    pub last_sensor: u32,
    pub updated: u32,
    pub reserved: u32,
}

#[repr(C)]
#[derive(Clone, Copy, Debug, PartialEq, Eq)]
pub struct PkSequence {
    pub sensor: u32,
    pub sequence: u64,
}

#[repr(C)]
#[derive(Clone, Copy, Debug, PartialEq, Eq)]
pub struct PkCandidate {
    pub position: [Double; 3],
    pub last_seen: i64,
    pub sightings: u32,
}

#[repr(C)]
#[derive(Clone, Copy, Debug, PartialEq, Eq)]
pub struct PkTracker {
    pub tracks: [PkTrack; 64],
    pub track_count: usize,
    pub next_track_id: u64,
    pub last_time: i64,
    pub sequences: [PkSequence; 32],
    pub sequence_count: usize,
    pub candidates: [PkCandidate; 64],
    pub candidate_count: usize,
    pub settings: PkSettings,
    pub has_last_time: u32,
    pub reserved: u32,
}

#[repr(C)]
#[derive(Clone, Copy, Debug, PartialEq, Eq)]
pub struct PkDetection {
    pub position: [Double; 3],
    pub covariance: [Double; 9],
    pub velocity: [Double; 2],
    pub score: Double,
    pub has_velocity: u32,
    pub has_score: u32,
    pub has_class: u32,
    pub class_label: u32,
}

#[repr(C)]
#[derive(Clone, Copy, Debug, PartialEq, Eq)]
pub struct PkBatch {
    pub sequence: u64,
    pub timestamp: i64,
    pub frame: PkFrame,
    pub sensor_id: u32,
    pub reserved: u32,
    pub count: usize,
    pub detections: [PkDetection; 64],
}

#[repr(C)]
#[derive(Clone, Copy, Debug, PartialEq, Eq)]
pub struct PkAssociation {
    pub observation_index: usize,
    pub track_id: u64,
    pub cost: Double,
    pub outcome: u32,
    pub has_track: u32,
    pub has_cost: u32,
    pub reserved: u32,
}

#[repr(C)]
#[derive(Clone, Copy, Debug, PartialEq, Eq)]
pub struct PkReport {
    pub code: u32,
    pub sensor_id: u32,
    pub timestamp: i64,
    pub association_count: usize,
    pub unmatched_track_count: usize,
    pub associations: [PkAssociation; 64],
    pub unmatched_track_ids: [u64; 64],
}

/// The layout that the library is proved for.
const _: () = {
    use std::mem::{align_of, offset_of, size_of};
    assert!(size_of::<usize>() == 8 && align_of::<PkTracker>() == 8 && align_of::<PkBatch>() == 8);
    assert!(size_of::<PkSettings>() == 184 && size_of::<PkFrame>() == 40);
    assert!(size_of::<PkTrack>() == 504 && size_of::<PkTracker>() == 35560);
    assert!(size_of::<PkDetection>() == 136 && size_of::<PkBatch>() == 8776);
    assert!(size_of::<PkAssociation>() == 40 && size_of::<PkReport>() == 3104);
    assert!(size_of::<PkSequence>() == 16 && size_of::<PkCandidate>() == 40);
    assert!(
        offset_of!(PkSettings, max_contributing_sensors) == 32
            && offset_of!(PkSettings, frame) == 40
    );
    assert!(
        offset_of!(PkSettings, accel_spectral_density) == 80
            && offset_of!(PkSettings, birth_persistence) == 160
    );
    assert!(offset_of!(PkTrack, filter) == 8 && offset_of!(PkTrack, created_at) == 344);
    assert!(offset_of!(PkTrack, sensors) == 384 && offset_of!(PkTrack, lifecycle) == 456);
    assert!(offset_of!(PkTrack, updated) == 496);
    assert!(
        offset_of!(PkTracker, track_count) == 32256 && offset_of!(PkTracker, sequences) == 32280
    );
    assert!(
        offset_of!(PkTracker, sequence_count) == 32792
            && offset_of!(PkTracker, candidates) == 32800
    );
    assert!(
        offset_of!(PkTracker, candidate_count) == 35360 && offset_of!(PkTracker, settings) == 35368
    );
    assert!(offset_of!(PkTracker, has_last_time) == 35552);
    assert!(offset_of!(PkDetection, covariance) == 24 && offset_of!(PkDetection, velocity) == 96);
    assert!(offset_of!(PkDetection, score) == 112 && offset_of!(PkDetection, has_velocity) == 120);
    assert!(offset_of!(PkBatch, frame) == 16 && offset_of!(PkBatch, sensor_id) == 56);
    assert!(offset_of!(PkBatch, count) == 64 && offset_of!(PkBatch, detections) == 72);
    assert!(offset_of!(PkAssociation, cost) == 16 && offset_of!(PkAssociation, outcome) == 24);
    assert!(
        offset_of!(PkReport, associations) == 32
            && offset_of!(PkReport, unmatched_track_ids) == 2592
    );
};

extern "C" {
    fn pk_settings_default() -> PkSettings;
    fn pk_settings_check(settings: PkSettings) -> u32;
    fn pk_tracker_new(t: *mut PkTracker, settings: PkSettings) -> u32;
    fn pk_predict_to(t: *mut PkTracker, at: i64) -> u32;
    fn pk_set_class_prior(t: *mut PkTracker, track_id: u64, label: u32, confidence: f64) -> u32;
    fn pk_process_batch(t: *mut PkTracker, batch: *const PkBatch) -> PkReport;
}

/// The settings that hold where nothing is set.
pub fn settings_default() -> PkSettings {
    unsafe { pk_settings_default() }
}

/// 0, or the number of the first bad field.
pub fn settings_check(settings: PkSettings) -> u32 {
    unsafe { pk_settings_check(settings) }
}

impl PkSettings {
    pub fn of(settings: &Cartesian3DTrackerConfig) -> Self {
        filled::settings(settings)
    }
}

impl PkBatch {
    pub fn of(batch: &ObservationBatch3D) -> Box<Self> {
        filled::batch(batch)
    }
}

impl PkTracker {
    /// Memory in which no tracker was made.
    pub fn unmade() -> Box<Self> {
        filled::unmade()
    }

    /// 0, or 1 for settings that are refused.
    #[inline]
    pub fn renew(&mut self, settings: PkSettings) -> u32 {
        unsafe { pk_tracker_new(self, settings) }
    }

    #[inline]
    pub fn predict_to(&mut self, at: i64) -> u32 {
        unsafe { pk_predict_to(self, at) }
    }

    #[inline]
    pub fn set_class_prior(&mut self, track: u64, label: u32, confidence: f64) -> u32 {
        unsafe { pk_set_class_prior(self, track, label, confidence) }
    }

    #[inline]
    pub fn process_batch(&mut self, batch: &PkBatch) -> PkReport {
        unsafe { pk_process_batch(self, batch) }
    }

    /// Whether each place behind the counts, the settings and what is reserved are as in an earlier record.
    fn keeps_the_rest_of(&self, earlier: &PkTracker) -> bool {
        let (tracks, sequences) = (self.track_count.min(64), self.sequence_count.min(32));
        let candidates = self.candidate_count.min(64);
        self.tracks[tracks..] == earlier.tracks[tracks..]
            && self.sequences[sequences..] == earlier.sequences[sequences..]
            && self.candidates[candidates..] == earlier.candidates[candidates..]
            && (self.settings, self.reserved) == (earlier.settings, earlier.reserved)
    }
}

/// Our replies to the calls of a case, each with the whole state after it, and whether all else is as it was: after a refusal every
/// field of the record as before the call, else what no call may touch.
pub fn replies(case: &CallsCase) -> Vec<CallReply> {
    let mut tracker = PkTracker::unmade();
    let first = made(&mut tracker, &case.settings);
    if first.state.is_none() {
        return vec![first];
    }
    filled::scribble_behind_the_counts(&mut tracker);
    let calls = case.calls.iter().map(|call| called(&mut tracker, call));
    std::iter::once(first).chain(calls).collect()
}

/// The first call. Our default settings must be the Rust's.
fn made(tracker: &mut PkTracker, settings: &Cartesian3DTrackerConfig) -> CallReply {
    let (given, before) = (PkSettings::of(settings), *tracker);
    let default = *settings == Cartesian3DTrackerConfig::default();
    let agreed = !default || settings_default() == given;
    let (field, number) = (settings_check(given), tracker.renew(given));
    match number {
        0 => CallReply {
            answer: Answer::Done,
            state: told::state(tracker),
            kept: agreed && field == 0 && *tracker == filled::fresh(given),
        },
        _ => CallReply {
            answer: Answer::BadField(field),
            state: None,
            kept: number == 1 && *tracker == before,
        },
    }
}

/// The call, on a tracker that was made.
pub fn called(tracker: &mut PkTracker, call: &Call) -> CallReply {
    let before = *tracker;
    let (number, report) = match call {
        Call::PredictTo(time) => (tracker.predict_to(*time), None),
        Call::SetClassPrior {
            track,
            label,
            confidence,
        } => (tracker.set_class_prior(*track, *label, *confidence), None),
        Call::ProcessBatch(batch) => {
            let report = tracker.process_batch(&PkBatch::of(batch));
            (report.code, Some(report))
        }
    };
    let told = report.map_or(Some(Answer::Done), |report| told::report(&report));
    CallReply {
        kept: match number {
            0 => tracker.keeps_the_rest_of(&before),
            _ => *tracker == before && report.is_none_or(|r| r == filled::no_report(number)),
        } && told.is_some(),
        answer: match number {
            0 => told.unwrap_or(Answer::Done),
            _ => Answer::Refused(number),
        },
        state: told::state(tracker),
    }
}
