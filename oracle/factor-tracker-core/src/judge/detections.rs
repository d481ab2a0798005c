//! Detections: what a batch makes of one alone, and the rule for its pair with a track.

use nalgebra::{Matrix3, Vector2, Vector3};

use super::filter::{Filter, Rows};
use super::refusal;
use crate::association::{classes_compatible, mahalanobis_association_cost};
use crate::tracker::{Cartesian3DTracker, Cartesian3DTrackerConfig, ObservationOutcome};
use crate::types::{
    ClassLabel, ObservationBatch3D, Position3DObservation, SensorId, Timestamp, TrackId,
};

/// A score below every threshold.
const BELOW_ALL: f64 = -1.0;

#[derive(Clone, Copy, Debug)]
pub struct Detection {
    pub position: [f64; 3],
    pub covariance: Rows<3, 3>,
    pub velocity: Option<[f64; 2]>,
    pub class: Option<u32>,
    pub score: Option<f64>,
}

/// What is believed of a track's class, and how strongly.
#[derive(Clone, Copy, Debug)]
pub struct Prior {
    pub label: u32,
    pub confidence: f64,
}

/// What of the settings a pair depends on.
#[derive(Clone, Copy, Debug)]
pub struct Rule {
    pub gate: f64,
    pub penalty: f64,
}

#[derive(Clone, Copy, Debug, PartialEq)]
pub enum Verdict {
    Allowed(f64),
    ClassesForbid,
    GateForbids,
    CostForbids,
    Refused(u32),
}

/// 0, or the number with which a batch that holds the detection is refused. Its score keeps it from beginning a track.
pub fn check(detection: &Detection) -> u32 {
    let handed = Detection {
        score: Some(BELOW_ALL),
        ..*detection
    };
    let settings = Cartesian3DTrackerConfig::default();
    let mut tracker = Cartesian3DTracker::new(settings).expect("the defaults are good");
    let outcome = tracker.process_batch_reported(&batch(1, &handed));
    outcome.map_or_else(|error| refusal::of(&error), |_| 0)
}

/// The Rust's own parts, in the order of its cost loop. That loop is inside its batch call, so the penalty is written out here; `by_batch` shows that
/// the call does the same.
pub fn verdict(
    filter: &Filter,
    class: Option<u32>,
    prior: Option<Prior>,
    detection: &Detection,
    rule: Rule,
) -> Verdict {
    if !classes_compatible(
        class.map(ClassLabel::new),
        detection.class.map(ClassLabel::new),
    ) {
        return Verdict::ClassesForbid;
    }
    let distance = match filter.squared_distance(detection.position, detection.covariance) {
        Ok(distance) => distance,
        Err(number) => return Verdict::Refused(number),
    };
    let Some(mut cost) = mahalanobis_association_cost(distance, rule.gate) else {
        return Verdict::GateForbids;
    };
    if let (Some(prior), Some(seen)) = (prior, detection.class) {
        if prior.label != seen {
            cost += rule.penalty * prior.confidence;
        }
    }
    match cost.is_finite() {
        true => Verdict::Allowed(cost),
        false => Verdict::CostForbids,
    }
}

/// What the Rust's batch call makes of the pair of a detection and the one track, which `first` began at the same time: the pair's cost where it is made.
pub fn by_batch(
    first: &Detection,
    prior: Option<Prior>,
    detection: &Detection,
    rule: Rule,
) -> Result<Option<f64>, u32> {
    let mut settings = Cartesian3DTrackerConfig {
        gate_squared_mahalanobis: rule.gate,
        class_prior_penalty: rule.penalty,
        ..Cartesian3DTrackerConfig::default()
    };
    settings.common.new_track_score_threshold = None;
    let number = |error| refusal::of(&error);
    let mut tracker = Cartesian3DTracker::new(settings).map_err(number)?;
    tracker
        .process_batch_reported(&batch(1, first))
        .map_err(number)?;
    if let Some(prior) = prior {
        let (track, label) = (TrackId::new(1), ClassLabel::new(prior.label));
        assert!(tracker.set_class_prior(track, label, prior.confidence));
    }
    let (_, report) = tracker
        .process_batch_reported(&batch(2, detection))
        .map_err(number)?;
    let made = &report.associations[0];
    Ok(match made.outcome {
        ObservationOutcome::Updated => made.cost,
        _ => None,
    })
}

/// The filter of a track that a detection begins under the default settings.
pub fn begun(first: &Detection) -> Result<Filter, u32> {
    let settings = Cartesian3DTrackerConfig::default();
    let mut state = [0.0; 6];
    let mut covariance = [[0.0; 6]; 6];
    for i in 0..3 {
        state[i] = first.position[i];
        covariance[i][..3].copy_from_slice(&first.covariance[i]);
        covariance[i + 3][i + 3] = settings.initial_velocity_variance;
    }
    Filter::new(state, covariance)
}

/// Whether a score keeps a detection from beginning a track.
pub fn is_below(score: Option<f64>, threshold: f64) -> bool {
    score.is_some_and(|score| score < threshold)
}

/// The distance that births go by.
pub fn distance(a: [f64; 3], b: [f64; 3]) -> f64 {
    (vector(a) - vector(b)).norm()
}

fn vector([x, y, z]: [f64; 3]) -> Vector3<f64> {
    Vector3::new(x, y, z)
}

/// A batch of one detection, in the default settings' frame.
fn batch(sequence: u64, detection: &Detection) -> ObservationBatch3D {
    let mut covariance = Matrix3::zeros();
    for (i, row) in detection.covariance.iter().enumerate() {
        for (j, x) in row.iter().enumerate() {
            covariance[(i, j)] = *x;
        }
    }
    ObservationBatch3D {
        sensor_id: SensorId::new(1),
        sequence,
        timestamp: Timestamp::from_nanos(0),
        frame_id: Cartesian3DTrackerConfig::default().frame_id,
        observations: vec![Position3DObservation {
            position: vector(detection.position),
            covariance,
            class_label: detection.class.map(ClassLabel::new),
            appearance: None,
            score: detection.score,
            velocity: detection.velocity.map(|[x, y]| Vector2::new(x, y)),
        }],
    }
}
