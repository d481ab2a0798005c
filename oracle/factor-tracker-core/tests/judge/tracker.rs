//! The whole tracker: refusals in order, the limits that the specification adds, and corners of the batch.

use factor_tracker_core::judge::tracker::Tracker;
use factor_tracker_core::tracker::{Cartesian3DTrackerConfig as Settings, ObservationOutcome};
use factor_tracker_core::types::{
    FrameId, ObservationBatch3D, Position3DObservation, SensorId, Timestamp, TrackLifecycleState,
};
use nalgebra::{Matrix3, Vector2, Vector3};

fn settings(change: impl Fn(&mut Settings)) -> Settings {
    let mut settings = Settings::default();
    settings.common.new_track_score_threshold = None;
    change(&mut settings);
    settings
}

fn at(x: f64) -> Position3DObservation {
    Position3DObservation {
        position: Vector3::new(x, 0.0, 0.0),
        covariance: Matrix3::identity(),
        class_label: None,
        appearance: None,
        score: None,
        velocity: None,
    }
}

fn moving(x: f64) -> Position3DObservation {
    Position3DObservation {
        velocity: Some(Vector2::new(1.0, 2.0)),
        ..at(x)
    }
}

/// Detections so far apart that none is near another.
fn apart(count: usize) -> Vec<Position3DObservation> {
    (0..count).map(|i| at(1e6 * i as f64)).collect()
}

fn batch(sequence: u64, time: i64, observations: Vec<Position3DObservation>) -> ObservationBatch3D {
    ObservationBatch3D {
        sensor_id: SensorId::new(1),
        sequence,
        timestamp: Timestamp::from_nanos(time),
        frame_id: FrameId::new("world"),
        observations,
    }
}

fn from_sensor(sensor: u32, mut batch: ObservationBatch3D) -> ObservationBatch3D {
    batch.sensor_id = SensorId::new(sensor);
    batch
}

fn tracker(settings: Settings) -> Tracker {
    Tracker::new(&settings).expect("settings that pass")
}

/// The number of a refused batch, after which nothing may have changed.
fn refused(tracker: &mut Tracker, batch: &ObservationBatch3D) -> u32 {
    let before = tracker.state();
    let number = tracker.process_batch(batch).expect_err("a refusal");
    assert_eq!(tracker.state(), before);
    number
}

fn accepted(tracker: &mut Tracker, batch: &ObservationBatch3D) -> Vec<ObservationOutcome> {
    let report = tracker.process_batch(batch).expect("an accepted batch");
    report.associations.iter().map(|a| a.outcome).collect()
}

#[test]
fn refusals_in_order() {
    let mut tracker = tracker(settings(|_| ()));
    accepted(&mut tracker, &batch(5, 10, vec![]));
    // Each step mends the first fault that is left.
    let mut bad = batch(5, 9, apart(65));
    bad.frame_id = FrameId::new("elsewhere");
    bad.observations[1].covariance = -1.0 * Matrix3::identity();
    bad.observations[0].velocity = Some(Vector2::new(0.0, f64::NAN));
    assert_eq!(refused(&mut tracker, &bad), 11);
    bad.observations.truncate(64);
    assert_eq!(refused(&mut tracker, &bad), 2);
    bad.frame_id = FrameId::new("world");
    assert_eq!(refused(&mut tracker, &bad), 3);
    bad.timestamp = Timestamp::from_nanos(10);
    assert_eq!(refused(&mut tracker, &bad), 4);
    bad.sequence = 6;
    assert_eq!(refused(&mut tracker, &bad), 5);
    bad.observations[0].velocity = None;
    assert_eq!(refused(&mut tracker, &bad), 7);
    bad.observations[1].covariance[(0, 1)] = 1.0;
    assert_eq!(refused(&mut tracker, &bad), 6);
}

#[test]
fn bad_settings() {
    assert_eq!(
        Tracker::new(&settings(|s| s.gate_squared_mahalanobis = 0.0)).err(),
        Some(8)
    );
}

#[test]
fn a_sensor_too_many_comes_after_the_checks() {
    let mut tracker = tracker(settings(|_| ()));
    for sensor in 0..32 {
        accepted(&mut tracker, &from_sensor(sensor, batch(0, 0, vec![])));
    }
    assert_eq!(
        refused(&mut tracker, &from_sensor(32, batch(0, 0, vec![]))),
        11
    );
    assert_eq!(
        refused(
            &mut tracker,
            &from_sensor(32, batch(0, 0, vec![at(f64::NAN)]))
        ),
        5
    );
    accepted(&mut tracker, &from_sensor(7, batch(1, 0, vec![])));
}

#[test]
fn a_sensor_too_many_comes_before_prediction() {
    let mut tracker = tracker(settings(|s| {
        s.common.tentative_timeout_ns = i64::MAX;
        s.recent_track_window_ns = Some(1);
    }));
    accepted(
        &mut tracker,
        &from_sensor(0, batch(0, i64::MIN, vec![at(0.0)])),
    );
    for sensor in 1..32 {
        accepted(
            &mut tracker,
            &from_sensor(sensor, batch(0, i64::MIN, vec![])),
        );
    }
    // A time difference that overflows would be 8.
    assert_eq!(
        refused(&mut tracker, &from_sensor(5, batch(1, 5, vec![]))),
        8
    );
    assert_eq!(
        refused(&mut tracker, &from_sensor(32, batch(1, 5, vec![]))),
        11
    );
}

#[test]
fn a_window_age_overflows() {
    let mut tracker = tracker(settings(|s| {
        s.common.tentative_timeout_ns = i64::MAX;
        s.recent_track_window_ns = Some(1);
    }));
    accepted(&mut tracker, &batch(0, i64::MIN, vec![at(0.0)]));
    tracker.predict_to(-1).unwrap();
    tracker.predict_to(5).unwrap();
    assert_eq!(tracker.state().tracks.len(), 1);
    assert_eq!(refused(&mut tracker, &batch(1, 5, vec![])), 8);
    assert_eq!(tracker.stopped_at(), "window age");
}

/// Settings with which every detection near a confirmed track is suppressed, and seen thrice begins one.
fn persistent(distance: f64) -> Settings {
    settings(|s| {
        s.common.confirm_min_observation_times = 1;
        s.min_birth_distance_m = Some(distance);
        s.birth_persistence = Some(3);
    })
}

#[test]
fn a_candidate_age_overflows() {
    let mut tracker = tracker(persistent(10.0));
    let near = || Position3DObservation {
        position: Vector3::new(0.0, 9.0, 0.0),
        ..at(0.0)
    };
    accepted(&mut tracker, &batch(0, i64::MIN, vec![at(0.0)]));
    accepted(&mut tracker, &batch(1, i64::MIN, vec![at(0.0), near()]));
    tracker.predict_to(-1).unwrap();
    let state = tracker.state();
    assert_eq!((state.tracks.len(), state.birth_candidates.len()), (0, 1));
    assert_eq!(refused(&mut tracker, &batch(2, 5, vec![])), 8);
    assert_eq!(tracker.stopped_at(), "candidate age");
}

/// The Rust has the same words for both updates.
#[test]
fn which_update_stopped() {
    let mut tracker = tracker(settings(|s| s.velocity_measurement_std = Some(1.0)));
    let at_speed = |speed: f64| Position3DObservation {
        velocity: Some(Vector2::new(speed, 0.0)),
        ..at(0.0)
    };
    accepted(&mut tracker, &batch(0, 0, vec![at_speed(-f64::MAX)]));
    assert_eq!(
        refused(&mut tracker, &batch(1, 0, vec![at_speed(f64::MAX)])),
        9
    );
    assert_eq!(tracker.stopped_at(), "velocity's Kalman update");
    let mut wide = tracker_with_variance(1e308);
    accepted(&mut wide, &batch(0, 0, vec![at(0.0)]));
    assert_eq!(refused(&mut wide, &batch(1, 0, vec![moving(0.0)])), 9);
    assert_eq!(wide.stopped_at(), "Kalman update");
}

/// Twice the variance is no number.
fn tracker_with_variance(variance: f64) -> Tracker {
    tracker(settings(|s| s.initial_velocity_variance = variance))
}

#[test]
fn a_track_too_many() {
    let mut tracker = tracker(settings(|s| s.velocity_measurement_std = Some(1e200)));
    accepted(&mut tracker, &batch(0, 0, apart(63)));
    // The velocity's variance overflows, so a birth with a velocity is 5. The first fault in order counts.
    let far = |x: f64| x * -1e6;
    let late = vec![at(far(1.0)), at(far(2.0)), moving(far(3.0))];
    assert_eq!(refused(&mut tracker, &batch(1, 0, late)), 11);
    let early = vec![moving(far(3.0)), at(far(1.0)), at(far(2.0))];
    assert_eq!(refused(&mut tracker, &batch(1, 0, early)), 5);
    assert_eq!(
        refused(
            &mut tracker,
            &batch(1, 0, vec![at(far(1.0)), moving(far(3.0))])
        ),
        11
    );
    accepted(&mut tracker, &batch(1, 0, vec![at(far(1.0))]));
    assert_eq!(tracker.state().tracks.len(), 64);
    accepted(&mut tracker, &batch(2, 0, apart(1)));
    assert_eq!(
        refused(&mut tracker, &batch(3, 0, vec![moving(far(3.0))])),
        11
    );
}

#[test]
fn a_candidate_too_many() {
    let mut tracker = tracker(persistent(1e9));
    accepted(&mut tracker, &batch(0, 0, vec![at(0.0)]));
    accepted(&mut tracker, &batch(1, 0, apart(64)));
    assert_eq!(tracker.state().birth_candidates.len(), 63);
    accepted(&mut tracker, &batch(2, 0, vec![at(-1e6)]));
    assert_eq!(refused(&mut tracker, &batch(3, 0, vec![at(-2e6)])), 11);
    // One that is continued is not one more.
    accepted(&mut tracker, &batch(3, 1, vec![at(1e6)]));
}

#[test]
fn a_candidate_leaves_by_the_last_ones_move() {
    let mut tracker = tracker(persistent(1e9));
    accepted(&mut tracker, &batch(0, 0, vec![at(0.0)]));
    let seen = |time: i64, places: &[f64]| {
        let near = places.iter().map(|x| at(*x));
        batch(
            time as u64,
            time,
            std::iter::once(at(0.0)).chain(near).collect(),
        )
    };
    accepted(&mut tracker, &seen(1, &[100.0, 200.0, 300.0]));
    accepted(&mut tracker, &seen(2, &[100.0]));
    accepted(&mut tracker, &seen(3, &[100.0]));
    let state = tracker.state();
    let places: Vec<f64> = state
        .birth_candidates
        .iter()
        .map(|c| f64::from_bits(c.position[0]))
        .collect();
    assert_eq!(places, [300.0, 200.0]);
    assert_eq!(state.tracks[1].lifecycle.observation_times_count, 3);
    assert_eq!(
        state.tracks[1].lifecycle.state,
        TrackLifecycleState::Confirmed
    );
}

#[test]
fn a_distance_equal_to_the_gate_pairs() {
    // P 3 and R 1 make S 4; an offset of 2 is at a distance of 1.
    let wide = || Position3DObservation {
        covariance: 3.0 * Matrix3::identity(),
        ..at(0.0)
    };
    for (gate, outcome) in [
        (1.0, ObservationOutcome::Updated),
        (
            f64::from_bits(1.0_f64.to_bits() - 1),
            ObservationOutcome::Spawned,
        ),
    ] {
        let mut tracker = tracker(settings(|s| s.gate_squared_mahalanobis = gate));
        accepted(&mut tracker, &batch(0, 0, vec![wide()]));
        assert_eq!(
            accepted(&mut tracker, &batch(1, 0, vec![at(2.0)])),
            [outcome]
        );
    }
}

#[test]
fn priors() {
    let mut tracker = tracker(settings(|_| ()));
    accepted(&mut tracker, &batch(0, 0, vec![at(0.0)]));
    let mut set = |track, confidence| {
        let answer = tracker.set_class_prior(track, 4, confidence);
        (answer, tracker.state().tracks[0].class_prior)
    };
    assert_eq!(set(1, f64::NAN), (Err(12), None));
    assert_eq!(set(2, 0.5), (Err(12), None));
    assert_eq!(set(1, -0.0), (Ok(()), Some((4, (-0.0_f64).to_bits()))));
    assert_eq!(set(1, 7.5), (Ok(()), Some((4, 1.0_f64.to_bits()))));
    assert_eq!(
        set(1, f64::INFINITY),
        (Err(12), Some((4, 1.0_f64.to_bits())))
    );
}

#[test]
fn predictions() {
    let mut tracker = tracker(settings(|_| ()));
    tracker.predict_to(3).unwrap();
    assert_eq!(tracker.state().last_time, Some(3));
    assert_eq!(tracker.predict_to(2), Err(3));
    accepted(&mut tracker, &batch(0, 3, vec![at(0.0)]));
    tracker.predict_to(4).unwrap();
    let state = tracker.state();
    assert!(
        state.tracks[0].updated_this_batch,
        "a prediction keeps the marks"
    );
    assert_eq!(state.tracks[0].state_timestamp, 4);
    assert_eq!(state.last_sequence, [(1, 0)]);
}

#[test]
fn scores_and_thresholds() {
    let with = |threshold, score| {
        let mut tracker = tracker(settings(|s| s.common.new_track_score_threshold = threshold));
        let detection = Position3DObservation { score, ..at(0.0) };
        accepted(&mut tracker, &batch(0, 0, vec![detection])) == [ObservationOutcome::Spawned]
    };
    assert!(with(None, Some(-5.0)));
    assert!(with(Some(0.5), None));
    assert!(with(Some(0.5), Some(f64::NAN)));
    assert!(with(Some(0.5), Some(0.5)));
    assert!(with(Some(0.0), Some(-0.0)));
    assert!(!with(Some(0.5), Some(0.25)));
}

#[test]
fn a_zero_cost_is_plus_zero() {
    let mut tracker = tracker(settings(|_| ()));
    accepted(&mut tracker, &batch(0, 0, vec![at(-0.0)]));
    let report = tracker.process_batch(&batch(1, 0, vec![at(0.0)])).unwrap();
    assert_eq!(report.associations[0].cost, Some(0));
    assert_eq!(report.associations[0].track_id, Some(1));
}
