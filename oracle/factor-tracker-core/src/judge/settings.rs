//! Settings: the first bad field by the specification's number.

use crate::error::InputError;
use crate::tracker::Cartesian3DTrackerConfig;
use crate::types::FrameId;

/// Longest name of a frame, in bytes.
const FRAME_BYTES: usize = 32;
/// Most contributing sensors that a track may keep.
const CONTRIBUTING_SENSORS: usize = 16;

/// The fields that the Rust checks, in the specification's order. A reason that the Rust gives begins with the field.
const FIELDS: [&str; 15] = [
    "tentative_timeout_ns",
    "confirmed_to_lost_ns",
    "lost_to_delete_ns",
    "max_contributing_sensors",
    "new_track_score_threshold",
    "accel_spectral_density",
    "initial_velocity_variance",
    "gate_squared_mahalanobis",
    "class_prior_penalty",
    "min_birth_distance_m",
    "birth_persistence",
    "birth_candidate_radius_m",
    "birth_candidate_timeout_ns",
    "velocity_measurement_std",
    "recent_track_window_ns",
];

/// One way to spoil each field, in the specification's order, for tests and cases. The fourth and the last are one field.
pub const SPOILERS: [fn(&mut Cartesian3DTrackerConfig); 17] = [
    |s| s.common.tentative_timeout_ns = 0,
    |s| s.common.confirmed_to_lost_ns = 0,
    |s| s.common.lost_to_delete_ns = s.common.confirmed_to_lost_ns - 1,
    |s| s.common.max_contributing_sensors = 0,
    |s| s.common.new_track_score_threshold = Some(f64::NAN),
    |s| s.accel_spectral_density = -f64::from_bits(1),
    |s| s.initial_velocity_variance = 0.0,
    |s| s.gate_squared_mahalanobis = f64::INFINITY,
    |s| s.class_prior_penalty = f64::NAN,
    |s| s.min_birth_distance_m = Some(-0.0),
    |s| s.birth_persistence = Some(1),
    |s| s.birth_candidate_radius_m = 0.0,
    |s| s.birth_candidate_timeout_ns = 0,
    |s| s.velocity_measurement_std = Some(f64::INFINITY),
    |s| s.recent_track_window_ns = Some(0),
    |s| s.frame_id = FrameId::new("f".repeat(33)),
    |s| s.common.max_contributing_sensors = 17,
];

/// The number of the first bad field. The last two are the specification's own.
pub fn first_bad_field(settings: &Cartesian3DTrackerConfig) -> Option<u32> {
    match settings.validate() {
        Err(InputError::InvalidConfig { reason }) => Some(field_of(reason)),
        Err(error) => panic!("settings are not refused with {error}"),
        Ok(()) if settings.frame_id.as_str().len() > FRAME_BYTES => Some(16),
        Ok(()) if settings.common.max_contributing_sensors > CONTRIBUTING_SENSORS => Some(17),
        Ok(()) => None,
    }
}

fn field_of(reason: &str) -> u32 {
    let named = |field: &&str| reason.split(' ').next() == Some(field);
    let place = FIELDS.iter().position(named);
    place.unwrap_or_else(|| panic!("no field for: {reason}")) as u32 + 1
}
