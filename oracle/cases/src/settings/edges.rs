//! Settings at the edges: each field bad by itself and with its neighbour, and every field at the values where something changes.

use factor_tracker_core::judge::settings::SPOILERS;
use factor_tracker_core::tracker::Cartesian3DTrackerConfig as Settings;
use factor_tracker_core::types::FrameId;

type Change = fn(&mut Settings);

const FLOATS: [fn(&mut Settings, f64); 8] = [
    |s, x| s.common.new_track_score_threshold = Some(x),
    |s, x| s.accel_spectral_density = x,
    |s, x| s.initial_velocity_variance = x,
    |s, x| s.gate_squared_mahalanobis = x,
    |s, x| s.class_prior_penalty = x,
    |s, x| s.min_birth_distance_m = Some(x),
    |s, x| s.birth_candidate_radius_m = x,
    |s, x| s.velocity_measurement_std = Some(x),
];

const TIMES: [fn(&mut Settings, i64); 5] = [
    |s, t| s.common.tentative_timeout_ns = t,
    |s, t| s.common.confirmed_to_lost_ns = t,
    |s, t| s.common.lost_to_delete_ns = t,
    |s, t| s.birth_candidate_timeout_ns = t,
    |s, t| s.recent_track_window_ns = Some(t),
];

const NUMBERS: [f64; 16] = [
    0.0,
    -0.0,
    5e-324,
    -5e-324,
    f64::MIN_POSITIVE,
    0.5,
    1.0 - f64::EPSILON / 2.0,
    1.0,
    1.0 + f64::EPSILON,
    -1.0,
    f64::MAX,
    f64::MIN,
    f64::INFINITY,
    f64::NEG_INFINITY,
    f64::NAN,
    16.266,
];

/// The two beside the default of the confirmed timeout are where Lost would drop first.
const MOMENTS: [i64; 8] = [
    i64::MIN,
    -1,
    0,
    1,
    499_999_999,
    500_000_000,
    500_000_001,
    i64::MAX,
];

const COUNTS: [u32; 5] = [0, 1, 2, 3, u32::MAX];
const SENSORS: [usize; 6] = [0, 1, 15, 16, 17, usize::MAX];
const LENGTHS: [usize; 7] = [0, 1, 5, 31, 32, 33, 64];

/// Every edge, the defaults first.
pub fn all() -> Vec<Settings> {
    let none: &[Change] = &[];
    let alone = SPOILERS.chunks(1);
    let pairs = SPOILERS.windows(2);
    let bad = std::iter::once(none).chain(alone).chain(pairs).map(spoiled);
    bad.chain(numbers())
        .chain(moments())
        .chain(whole())
        .collect()
}

fn spoiled(changes: &[Change]) -> Settings {
    with(|s| changes.iter().for_each(|change| change(s)))
}

fn with(change: impl Fn(&mut Settings)) -> Settings {
    let mut settings = Settings::default();
    change(&mut settings);
    settings
}

fn numbers() -> impl Iterator<Item = Settings> {
    let at = |put: fn(&mut Settings, f64)| NUMBERS.map(|x| with(|s| put(s, x)));
    FLOATS.into_iter().flat_map(at)
}

fn moments() -> impl Iterator<Item = Settings> {
    let at = |put: fn(&mut Settings, i64)| MOMENTS.map(|t| with(|s| put(s, t)));
    TIMES.into_iter().flat_map(at)
}

fn whole() -> impl Iterator<Item = Settings> {
    let confirm = COUNTS.map(|n| with(|s| s.common.confirm_min_observation_times = n));
    let persistence = COUNTS.map(|n| with(|s| s.birth_persistence = Some(n)));
    let sensors = SENSORS.map(|n| with(|s| s.common.max_contributing_sensors = n));
    let frames = LENGTHS.map(|n| with(|s| s.frame_id = FrameId::new("x".repeat(n))));
    let counts = confirm.into_iter().chain(persistence);
    counts.chain(sensors).chain(frames)
}

#[cfg(test)]
mod tests {
    use factor_tracker_core::judge::settings::first_bad_field;

    use super::*;

    #[test]
    fn bad_fields_with_their_neighbours() {
        for (number, pair) in (1..).zip(SPOILERS.windows(2)) {
            assert_eq!(first_bad_field(&spoiled(pair)), Some(number));
        }
        assert_eq!(all().len(), 1 + 17 + 16 + 8 * 16 + 5 * 8 + 10 + 6 + 7);
    }
}
