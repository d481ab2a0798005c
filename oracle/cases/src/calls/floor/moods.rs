//! What is unusual on a floor: its settings, and what its detections carry.

use factor_tracker_core::judge::detections::{begun, Detection};
use factor_tracker_core::judge::settings::first_bad_field;
use factor_tracker_core::types::TrackerConfig;

use super::*;

#[derive(Clone, Copy, PartialEq)]
pub enum Mood {
    Everyday,
    /// All walk through one place.
    Crossing,
    /// So many detections that the limits are met.
    Crowded,
    /// As many tracks as there are places for, and more.
    Full,
    /// The same of candidates beside one who stands still.
    Neighbours,
    /// So many sensors that the limit is met.
    Sensors,
    /// Times so far apart that differences overflow.
    Times,
    /// Numbers so large that distances, predictions and updates overflow.
    Huge,
    /// Covariances near singular, tiny and huge.
    Singular,
    /// Second boxes on a grid round one who stands still, where distances are equal.
    Grid,
    /// People close together, whose classes and priors fight the costs.
    Classes,
    /// One track and one detection, at the gate.
    Gate,
}

const MOODS: [(Mood, usize); 12] = [
    (Mood::Everyday, 16),
    (Mood::Crossing, 6),
    (Mood::Crowded, 1),
    (Mood::Full, 1),
    (Mood::Neighbours, 1),
    (Mood::Sensors, 2),
    (Mood::Times, 5),
    (Mood::Huge, 5),
    (Mood::Singular, 5),
    (Mood::Grid, 5),
    (Mood::Classes, 5),
    (Mood::Gate, 4),
];

pub fn any(random: &mut Random) -> Mood {
    let total: usize = MOODS.iter().map(|(_, weight)| weight).sum();
    let mut drawn = random.below(total as u64) as usize;
    for (mood, weight) in MOODS {
        if drawn < weight {
            return mood;
        }
        drawn -= weight;
    }
    unreachable!("a number below the total")
}

/// Deviations of a measured velocity; the squares of the last ones are infinite, zero and tiny.
const DEVIATIONS: [f64; 12] = [
    0.5, 1.0, 0.1, 0.2, 2.0, 0.5, 1.0, 0.25, 1e200, 1e-200, 1e-150, 1e-9,
];

fn common(random: &mut Random, mood: Mood) -> TrackerConfig {
    let timeouts: &[i64] = match mood {
        Mood::Times => &[i64::MAX, i64::MAX, 1_000_000_000],
        Mood::Huge | Mood::Singular => &[i64::MAX, 10_000_000_000, 200_000_000],
        Mood::Full | Mood::Neighbours | Mood::Sensors => &[1_000_000_000_000],
        _ => &[1_000_000_000, 200_000_000, 1],
    };
    let confirmed_to_lost_ns = one_of(random, timeouts);
    TrackerConfig {
        confirm_min_observation_times: one_of(random, &[0, 1, 2, 2, 3]),
        tentative_timeout_ns: one_of(random, timeouts),
        confirmed_to_lost_ns,
        lost_to_delete_ns: confirmed_to_lost_ns.saturating_mul(one_of(random, &[1, 2, 4])),
        new_track_score_threshold: one_of(random, &[None, Some(0.3), Some(0.0), Some(1.0)]),
        max_contributing_sensors: one_of(random, &[1, 2, 3, 16]),
    }
}

pub fn settings(random: &mut Random, mood: Mood) -> Cartesian3DTrackerConfig {
    if mood == Mood::Everyday && random.below(4) == 0 {
        return any_good(random);
    }
    let (gates, variances): (&[f64], &[f64]) = match mood {
        Mood::Huge => (&[f64::MAX, 1e300, 16.266], &[4.0, 1e300, 1e308, 1e-300]),
        Mood::Singular => (&[f64::MAX, 16.266, 100.0], &[4.0, 1e10, 1e150, 1e300]),
        _ => (&[16.266, 16.266, 1.0, 100.0], &[4.0, 0.25, 1e-300]),
    };
    let mut settings = Cartesian3DTrackerConfig {
        common: common(random, mood),
        accel_spectral_density: one_of(random, &[1.0, 0.0, -0.0, 8.0, 1e280]),
        initial_velocity_variance: one_of(random, variances),
        gate_squared_mahalanobis: one_of(random, gates),
        class_prior_penalty: one_of(random, &[8.0, 0.0, 1.0, 16.266, 1e308, f64::MAX]),
        recent_track_window_ns: sometimes(random, |r| one_of(r, &[1, 150_000_000, i64::MAX])),
        min_birth_distance_m: sometimes(random, |r| one_of(r, &[0.8, 2.0, 1e9])),
        birth_persistence: sometimes(random, |r| one_of(r, &[2, 2, 3])),
        birth_candidate_radius_m: one_of(random, &[0.5, 2.0]),
        birth_candidate_timeout_ns: one_of(random, &[300_000_000, 1, i64::MAX]),
        velocity_measurement_std: sometimes(random, |r| one_of(r, &DEVIATIONS)),
        ..Cartesian3DTrackerConfig::default()
    };
    match mood {
        Mood::Grid => of_the_grid(random, &mut settings),
        Mood::Full => of_the_full(&mut settings),
        Mood::Neighbours => of_neighbours(random, &mut settings),
        Mood::Sensors => of_sensors(random, &mut settings),
        _ => (),
    }
    settings
}

/// Good settings of any kind.
fn any_good(random: &mut Random) -> Cartesian3DTrackerConfig {
    loop {
        let SettingsCase(settings) = SettingsCase::random(random);
        if first_bad_field(&settings).is_none() {
            return settings;
        }
    }
}

/// Candidates are kept, and the grid has lengths that are equal to the distance and to the radius.
fn of_the_grid(random: &mut Random, settings: &mut Cartesian3DTrackerConfig) {
    settings.common.new_track_score_threshold = None;
    settings.min_birth_distance_m = Some(one_of(random, &[0.75, 2.0]));
    settings.birth_persistence = Some(one_of(random, &[2, 3, 4]));
    settings.birth_candidate_radius_m = one_of(random, &[0.5, 0.75, 2.0]);
    settings.birth_candidate_timeout_ns = one_of(random, &[300_000_000, i64::MAX]);
}

/// Every detection that stands alone begins a track.
fn of_the_full(settings: &mut Cartesian3DTrackerConfig) {
    settings.common.new_track_score_threshold = None;
    settings.min_birth_distance_m = None;
    settings.accel_spectral_density = 1.0;
    // With it no track can begin with a velocity.
    settings.velocity_measurement_std = Some(1e200);
}

/// Every detection beside the one who stands still leaves a candidate.
fn of_neighbours(random: &mut Random, settings: &mut Cartesian3DTrackerConfig) {
    of_the_full(settings);
    settings.common.confirm_min_observation_times = one_of(random, &[0, 1]);
    settings.min_birth_distance_m = Some(1e9);
    settings.birth_persistence = Some(one_of(random, &[3, 4]));
    settings.birth_candidate_timeout_ns = i64::MAX;
    settings.velocity_measurement_std = None;
}

/// One track stays, to which all sensors contribute.
fn of_sensors(random: &mut Random, settings: &mut Cartesian3DTrackerConfig) {
    settings.common.max_contributing_sensors = one_of(random, &[2, 15, 16, 16]);
    settings.accel_spectral_density = 1.0;
    settings.velocity_measurement_std = None;
}

/// A detection at a place, with all that it may carry.
pub fn dressed(random: &mut Random, mood: Mood, place: [f64; 3]) -> Position3DObservation {
    let plain = matches!(mood, Mood::Full | Mood::Neighbours | Mood::Sensors);
    let place = match random.below(200) {
        0 if !plain => place.map(|_| floats::edge(random)),
        _ => place,
    };
    Position3DObservation {
        class_label: sometimes(random, |random| ClassLabel::new(random.below(3) as u32))
            .filter(|_| !plain),
        score: sometimes(random, |random| match random.below(8) {
            0 => floats::edge(random),
            1 => 0.3,
            _ => floats::unit(random),
        }),
        velocity: sometimes(random, |random| velocity(random, mood)).filter(|_| !plain),
        ..detection(place, spread(random, mood))
    }
}

fn velocity(random: &mut Random, mood: Mood) -> Vector2<f64> {
    let huge = [f64::MAX, -f64::MAX, 1e308, -1e308, 1e200];
    match random.below(100) {
        0 => vector2([floats::edge(random), 0.0]),
        1..30 if mood == Mood::Huge => vector2([one_of(random, &huge), one_of(random, &huge)]),
        _ => vector2([floats::within(random, 2.0), floats::within(random, 2.0)]),
    }
}

/// The same variance in each direction.
fn level(x: f64) -> Rows<3> {
    [[x, 0.0, 0.0], [0.0, x, 0.0], [0.0, 0.0, x]]
}

fn spread(random: &mut Random, mood: Mood) -> Rows<3> {
    match (random.below(12), mood) {
        (_, Mood::Full | Mood::Neighbours | Mood::Sensors) => level(0.04),
        (0..=5, Mood::Singular) => level(2.0_f64.powi(random.below(600) as i32 - 400)),
        (_, Mood::Singular) | (0 | 1, _) => covariance(random),
        _ => level(0.04),
    }
}

/// A track, perhaps with a prior, and one detection: the gate is their distance, a double beside it, or so large that only the penalty
/// forbids.
pub fn at_the_gate(random: &mut Random) -> CallsCase {
    let mut settings = settings(random, Mood::Everyday);
    settings.common.new_track_score_threshold = None;
    settings.common.tentative_timeout_ns = settings.common.tentative_timeout_ns.max(1);
    settings.velocity_measurement_std = None;
    settings.recent_track_window_ns = sometimes(random, |random| 1 + random.below(9) as i64);
    let huge = random.below(3) == 0;
    if huge {
        settings.class_prior_penalty = f64::MAX;
    }
    let place = match huge {
        true => far_out(random),
        false => [0.0; 3].map(|_| floats::within(random, 2.0)),
    };
    let rows = spread(random, Mood::Everyday);
    let first = detection([0.0; 3], rows);
    let second = Position3DObservation {
        class_label: sometimes(random, |_| ClassLabel::new(2)),
        ..detection(place, spread(random, Mood::Everyday))
    };
    settings.gate_squared_mahalanobis = gate(random, rows, &second, huge);
    let first = |sequence| Call::ProcessBatch(alone(&settings, sequence, first.clone()));
    let mut calls = vec![first(1)];
    if random.below(2) == 0 {
        calls.push(Call::SetClassPrior {
            track: 1,
            label: 1,
            confidence: one_of(random, &[1.0, 0.5, 1e-9]),
        });
    }
    calls.push(Call::ProcessBatch(alone(&settings, 2, second)));
    calls.extend([Call::PredictTo(0), first(3), Call::PredictTo(100_000_000)]);
    CallsCase { settings, calls }
}

/// A variance of 3, one of 1 measured 2 away: the distance is 1.
pub fn at_a_gate(gate: f64) -> CallsCase {
    let mut settings = Cartesian3DTrackerConfig {
        gate_squared_mahalanobis: gate,
        ..Cartesian3DTrackerConfig::default()
    };
    settings.common.new_track_score_threshold = None;
    let seen = |x, variance| detection([x, 0.0, 0.0], level(variance));
    let calls = vec![
        Call::ProcessBatch(alone(&settings, 1, seen(0.0, 3.0))),
        Call::ProcessBatch(alone(&settings, 2, seen(2.0, 1.0))),
    ];
    CallsCase { settings, calls }
}

fn gate(random: &mut Random, rows: Rows<3>, second: &Position3DObservation, huge: bool) -> f64 {
    let plain = |position, covariance| Detection {
        position,
        covariance,
        velocity: None,
        class: None,
        score: None,
    };
    let spread = std::array::from_fn(|i| std::array::from_fn(|j| second.covariance[(i, j)]));
    let place = std::array::from_fn(|i| second.position[i]);
    let distance = begun(&plain([0.0; 3], rows))
        .and_then(|filter| filter.squared_distance(place, spread))
        .unwrap_or(1.0);
    let gates = [
        distance,
        distance.next_up(),
        distance.next_down(),
        if huge { f64::MAX } else { 2.0 * distance },
    ];
    let gate = one_of(random, &gates);
    if gate > 0.0 && gate.is_finite() {
        gate
    } else {
        16.266
    }
}

fn alone(
    settings: &Cartesian3DTrackerConfig,
    sequence: u64,
    detection: Position3DObservation,
) -> ObservationBatch3D {
    ObservationBatch3D {
        sensor_id: SensorId::new(1),
        sequence,
        timestamp: Timestamp::from_nanos(0),
        frame_id: settings.frame_id.clone(),
        observations: vec![detection],
    }
}
