//! Records filled from the Rust's types, and records as a call must leave them.

use factor_tracker_core::tracker::Cartesian3DTrackerConfig;
use factor_tracker_core::types::{FrameId, ObservationBatch3D, Position3DObservation};

use super::{PkBatch, PkDetection, PkFrame, PkLifecycle, PkReport, PkSettings, PkTracker};

/// What stands in memory that no call has written, byte after byte.
const UNTOUCHED: u8 = 0x5A;

/// A record of zeros. Every record is made of whole numbers alone, so that any bytes are one.
fn zeros<T: Copy>() -> T {
    unsafe { std::mem::zeroed() }
}

fn untouched<T: Copy>(record: &mut T) {
    unsafe { std::ptr::write_bytes(record, UNTOUCHED, 1) }
}

pub fn unmade() -> Box<PkTracker> {
    let mut tracker = Box::new(zeros());
    untouched(&mut *tracker);
    tracker
}

/// A tracker that has seen nothing: all else is zero.
pub fn fresh(settings: PkSettings) -> PkTracker {
    PkTracker {
        next_track_id: 1,
        settings,
        ..zeros()
    }
}

/// What a refused batch tells: its number, and nothing else.
pub fn no_report(code: u32) -> PkReport {
    PkReport { code, ..zeros() }
}

/// Bytes that mean nothing, in every place that a fresh tracker has not taken.
pub fn scribble_behind_the_counts(tracker: &mut PkTracker) {
    untouched(&mut tracker.tracks);
    untouched(&mut tracker.sequences);
    untouched(&mut tracker.candidates);
    untouched(&mut tracker.reserved);
}

/// A name of more than 32 bytes has its length, and the bytes that there is room for.
fn frame(name: &FrameId) -> PkFrame {
    let name = name.as_str().as_bytes();
    let mut bytes = [0; 32];
    let kept = name.len().min(32);
    bytes[..kept].copy_from_slice(&name[..kept]);
    PkFrame {
        bytes,
        length: name.len(),
    }
}

/// The bits of a value that may be missing, and the flag beside it.
fn optional(item: Option<f64>) -> (u64, u32) {
    item.map_or((0, 0), |x| (x.to_bits(), 1))
}

pub fn settings(settings: &Cartesian3DTrackerConfig) -> PkSettings {
    let common = &settings.common;
    let threshold = optional(common.new_track_score_threshold);
    let distance = optional(settings.min_birth_distance_m);
    let deviation = optional(settings.velocity_measurement_std);
    PkSettings {
        lifecycle: PkLifecycle {
            confirm_min_observation_times: common.confirm_min_observation_times,
            tentative_timeout_ns: common.tentative_timeout_ns,
            confirmed_to_lost_ns: common.confirmed_to_lost_ns,
            lost_to_delete_ns: common.lost_to_delete_ns,
        },
        max_contributing_sensors: common.max_contributing_sensors,
        frame: frame(&settings.frame_id),
        accel_spectral_density: settings.accel_spectral_density.to_bits(),
        initial_velocity_variance: settings.initial_velocity_variance.to_bits(),
        gate_squared_mahalanobis: settings.gate_squared_mahalanobis.to_bits(),
        class_prior_penalty: settings.class_prior_penalty.to_bits(),
        birth_candidate_radius_m: settings.birth_candidate_radius_m.to_bits(),
        birth_candidate_timeout_ns: settings.birth_candidate_timeout_ns,
        new_track_score_threshold: threshold.0,
        recent_track_window_ns: settings.recent_track_window_ns.unwrap_or(0),
        min_birth_distance_m: distance.0,
        velocity_measurement_std: deviation.0,
        birth_persistence: settings.birth_persistence.unwrap_or(0),
        has_new_track_score_threshold: threshold.1,
        has_recent_track_window: settings.recent_track_window_ns.is_some().into(),
        has_min_birth_distance: distance.1,
        has_velocity_measurement_std: deviation.1,
        has_birth_persistence: settings.birth_persistence.is_some().into(),
    }
}

/// More than 64 detections have their count, and the first 64 of them.
pub fn batch(batch: &ObservationBatch3D) -> Box<PkBatch> {
    let mut filled: Box<PkBatch> = Box::new(zeros());
    filled.sequence = batch.sequence;
    filled.timestamp = batch.timestamp.as_nanos();
    filled.frame = frame(&batch.frame_id);
    filled.sensor_id = batch.sensor_id.value();
    filled.count = batch.observations.len();
    for (place, seen) in filled.detections.iter_mut().zip(&batch.observations) {
        *place = detection(seen);
    }
    filled
}

fn detection(seen: &Position3DObservation) -> PkDetection {
    let velocity = seen.velocity.map_or([0.0; 2], |v| [v.x, v.y]);
    let score = optional(seen.score);
    PkDetection {
        position: std::array::from_fn(|i| seen.position[i].to_bits()),
        covariance: std::array::from_fn(|k| seen.covariance[(k / 3, k % 3)].to_bits()),
        velocity: velocity.map(f64::to_bits),
        score: score.0,
        has_velocity: seen.velocity.is_some().into(),
        has_score: score.1,
        has_class: seen.class_label.is_some().into(),
        class_label: seen.class_label.map_or(0, |label| label.value()),
    }
}
