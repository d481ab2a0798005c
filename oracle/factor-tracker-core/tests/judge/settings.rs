//! Each field of the settings, its order, and what is taken at its edge.

use factor_tracker_core::judge::settings::{first_bad_field, SPOILERS};
use factor_tracker_core::tracker::Cartesian3DTrackerConfig as Settings;
use factor_tracker_core::types::FrameId;

fn refused(spoil: impl Fn(&mut Settings)) -> Option<u32> {
    let mut settings = Settings::default();
    spoil(&mut settings);
    first_bad_field(&settings)
}

#[test]
fn each_field_has_its_number() {
    for (number, spoil) in (1..).zip(SPOILERS) {
        assert_eq!(refused(spoil), Some(number));
    }
}

#[test]
fn the_first_bad_field_is_named() {
    // The fourth and the last spoil one field, so the later of them is what stands.
    for (number, spoil) in (1..).zip(SPOILERS).filter(|(number, _)| *number != 4) {
        let from_here = |s: &mut Settings| {
            SPOILERS
                .iter()
                .skip(number as usize)
                .for_each(|later| later(s));
            spoil(s);
        };
        assert_eq!(refused(from_here), Some(number));
    }
}

#[test]
fn edges_are_taken() {
    assert_eq!(refused(|_| ()), None);
    assert_eq!(refused(|s| s.accel_spectral_density = -0.0), None);
    assert_eq!(refused(|s| s.class_prior_penalty = -0.0), None);
    assert_eq!(
        refused(|s| s.common.new_track_score_threshold = Some(-0.0)),
        None
    );
    assert_eq!(
        refused(|s| s.common.confirm_min_observation_times = 0),
        None
    );
    assert_eq!(
        refused(|s| s.common.lost_to_delete_ns = s.common.confirmed_to_lost_ns),
        None
    );
    assert_eq!(refused(|s| s.frame_id = FrameId::new("f".repeat(32))), None);
    assert_eq!(refused(|s| s.frame_id = FrameId::new("")), None);
    assert_eq!(refused(|s| s.common.max_contributing_sensors = 16), None);
}
