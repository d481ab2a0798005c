//! The lifecycle and the list of contributing sensors.

use factor_tracker_core::judge::lifecycle::{Lifecycle, LifecycleRecord};
use factor_tracker_core::judge::sensors::record_sensor;
use factor_tracker_core::types::{TrackLifecycleState, TrackerConfig};

const SECOND: i64 = 1_000_000_000;

fn confirmed(config: &TrackerConfig) -> Lifecycle {
    let mut lifecycle = Lifecycle::new(-1);
    lifecycle.register_observation(-1, config);
    lifecycle.register_observation(0, config);
    lifecycle
}

fn state(lifecycle: &Lifecycle) -> TrackLifecycleState {
    lifecycle.record().state
}

#[test]
fn record_shows_every_field() {
    let config = TrackerConfig::default();
    let new = LifecycleRecord {
        state: TrackLifecycleState::Tentative,
        created_at: i64::MIN,
        last_observation_timestamp: None,
        last_counted_timestamp: None,
        observation_times_count: 0,
    };
    let mut lifecycle = Lifecycle::new(i64::MIN);
    assert_eq!(lifecycle.record(), new);
    lifecycle.register_observation(7, &config);
    let seen = LifecycleRecord {
        last_observation_timestamp: Some(7),
        last_counted_timestamp: Some(7),
        observation_times_count: 1,
        ..new
    };
    assert_eq!(lifecycle.record(), seen);
}

#[test]
fn confirmed_at_default_timeouts() {
    let config = TrackerConfig::default();
    let mut lifecycle = confirmed(&config);
    assert!(!lifecycle.advance(500_000_000, &config));
    assert_eq!(state(&lifecycle), TrackLifecycleState::Confirmed);
    assert!(!lifecycle.advance(500_000_001, &config));
    assert_eq!(state(&lifecycle), TrackLifecycleState::Lost);
    assert!(!lifecycle.advance(2 * SECOND, &config));
    assert!(confirmed(&config).advance(2 * SECOND + 1, &config));
}

#[test]
fn tentative_drops_strictly_above_its_timeout() {
    let config = TrackerConfig::default();
    let mut lifecycle = Lifecycle::new(0);
    assert!(!lifecycle.advance(SECOND, &config));
    assert!(lifecycle.advance(SECOND + 1, &config));
    assert_eq!(state(&lifecycle), TrackLifecycleState::Deleted);
}

#[test]
fn one_time_counts_once() {
    let config = TrackerConfig::default();
    let mut lifecycle = Lifecycle::new(0);
    lifecycle.register_observation(5, &config);
    lifecycle.register_observation(5, &config);
    assert_eq!(lifecycle.record().observation_times_count, 1);
    lifecycle.register_observation(6, &config);
    assert_eq!(state(&lifecycle), TrackLifecycleState::Confirmed);
}

#[test]
fn the_largest_count_stays() {
    let config = TrackerConfig::default();
    let mut lifecycle = Lifecycle::new(0);
    lifecycle.credit_observation_times(u32::MAX, &config);
    lifecycle.register_observation(1, &config);
    assert_eq!(lifecycle.record().observation_times_count, u32::MAX);
}

#[test]
fn an_age_below_zero_or_overflowing_counts_as_zero() {
    let config = TrackerConfig::default();
    let mut lifecycle = Lifecycle::new(i64::MIN);
    assert!(!lifecycle.advance(0, &config));
    assert!(lifecycle.advance(-1, &config));
    assert!(!Lifecycle::new(5).advance(-SECOND, &config));
}

#[test]
fn lost_is_found_again() {
    let config = TrackerConfig::default();
    let mut lifecycle = confirmed(&config);
    lifecycle.advance(SECOND, &config);
    lifecycle.register_observation(SECOND, &config);
    assert_eq!(state(&lifecycle), TrackLifecycleState::Confirmed);
}

#[test]
fn contributing_sensors() {
    assert_eq!(record_sensor(&[1, 2], 3, 2), [2, 3]);
    assert_eq!(record_sensor(&[1, 2], 1, 2), [1, 2]);
    assert_eq!(record_sensor(&[], 9, 1), [9]);
}
