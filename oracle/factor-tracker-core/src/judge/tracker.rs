//! The whole tracker, with the limits that the specification adds to the Rust.

use std::collections::BTreeSet;

use super::report::Report;
use super::state::TrackerState;
use super::{panics, refusal, settings, PLACES};
use crate::tracker::{
    BatchReport3D, Cartesian3DTracker, Cartesian3DTrackerConfig, ObservationAssociation,
    ObservationOutcome,
};
use crate::types::{ClassLabel, ObservationBatch3D, SensorId, Timestamp, TrackId};

/// Most sensors with a sequence.
const SENSORS: usize = 32;

/// A score below every threshold.
const BELOW_ALL: f64 = -1.0;

#[derive(Clone)]
pub struct Tracker {
    rust: Cartesian3DTracker,
    sensors: BTreeSet<SensorId>,
    scores_matter: bool,
    candidates_are_kept: bool,
    stopped_at: &'static str,
}

/// Where a batch was refused, the specification's number, and the tracker that the Rust left where it was the Rust that refused.
struct Stopped {
    stage: Stage,
    number: u32,
    place: &'static str,
    left: Option<Box<Cartesian3DTracker>>,
}

impl Stopped {
    fn at_a_limit(place: &'static str) -> Self {
        Stopped {
            stage: Stage::Births,
            number: 11,
            place,
            left: None,
        }
    }
}

#[derive(PartialEq)]
enum Stage {
    /// The tests of the batch before anything moves.
    Checks,
    /// From prediction to the candidates' ages.
    Steps,
    Births,
}

impl Tracker {
    /// The tracker, or the first bad field of the settings.
    pub fn new(settings: &Cartesian3DTrackerConfig) -> Result<Self, u32> {
        assert!(
            panics::overflow_is_checked(),
            "the judge must be built with overflow checks"
        );
        if let Some(field) = settings::first_bad_field(settings) {
            return Err(field);
        }
        // With a threshold always set, any detection can be kept from beginning a track by its score alone.
        let mut handed = settings.clone();
        handed.common.new_track_score_threshold.get_or_insert(0.0);
        Ok(Tracker {
            rust: Cartesian3DTracker::new(handed).expect("settings that passed"),
            sensors: BTreeSet::new(),
            scores_matter: settings.common.new_track_score_threshold.is_some(),
            candidates_are_kept: settings.min_birth_distance_m.is_some()
                && settings.birth_persistence.is_some(),
            stopped_at: "",
        })
    }

    pub fn state(&self) -> TrackerState {
        TrackerState::of(&self.rust)
    }

    /// Where the last refused call stopped.
    pub fn stopped_at(&self) -> &'static str {
        self.stopped_at
    }

    pub fn predict_to(&mut self, time: i64) -> Result<(), u32> {
        let moved = self.rust.predict_to(Timestamp::from_nanos(time));
        moved.map_err(|error| {
            self.stopped_at = refusal::place(&error);
            refusal::of(&error)
        })
    }

    pub fn set_class_prior(&mut self, track: u64, label: u32, confidence: f64) -> Result<(), u32> {
        let (track, label) = (TrackId::new(track), ClassLabel::new(label));
        let set = self.rust.set_class_prior(track, label, confidence);
        set.then_some(()).ok_or(12)
    }

    /// The report, or the refusal's number. After a refusal of the Rust's own the tracker is what the Rust left of it.
    pub fn process_batch(&mut self, batch: &ObservationBatch3D) -> Result<Report, u32> {
        match self.processed(batch) {
            Ok((after, report)) => {
                self.rust = after;
                self.sensors.insert(batch.sensor_id);
                Ok(Report::of(&report))
            }
            Err(stopped) => {
                self.stopped_at = self.place(batch, &stopped);
                if let Some(left) = stopped.left {
                    self.rust = *left;
                }
                Err(stopped.number)
            }
        }
    }

    fn processed(
        &self,
        batch: &ObservationBatch3D,
    ) -> Result<(Cartesian3DTracker, BatchReport3D), Stopped> {
        let count = batch.observations.len();
        if count > PLACES {
            return Err(Stopped::at_a_limit("detections"));
        }
        let outcome = self.run(batch, count);
        let stage = outcome.as_ref().err().map(|stopped| &stopped.stage);
        let a_sensor_too_many =
            self.sensors.len() == SENSORS && !self.sensors.contains(&batch.sensor_id);
        if a_sensor_too_many && stage != Some(&Stage::Checks) {
            return Err(Stopped::at_a_limit("sensors"));
        }
        match outcome {
            Ok((after, report)) if self.has_kept_limits(&after, &report) => Ok((after, report)),
            Err(stopped) if stopped.stage != Stage::Births => Err(stopped),
            _ => self.within_limits(batch),
        }
    }

    /// Where a batch stopped. The Rust has the same words for both updates: it is the velocity's where the batch without velocities does
    /// not stop there.
    fn place(&self, batch: &ObservationBatch3D, stopped: &Stopped) -> &'static str {
        let of_velocity = match stopped.place {
            "innovation covariance" => "velocity's innovation covariance",
            "Kalman update" => "velocity's Kalman update",
            place => return place,
        };
        let mut without = batch.clone();
        for observation in &mut without.observations {
            observation.velocity = None;
        }
        match self.run(&without, 0) {
            Err(again) if again.place == stopped.place => stopped.place,
            _ => of_velocity,
        }
    }

    /// What the Rust makes of a batch whose detections from `born` on may not begin a track or leave a candidate.
    fn run(
        &self,
        batch: &ObservationBatch3D,
        born: usize,
    ) -> Result<(Cartesian3DTracker, BatchReport3D), Stopped> {
        let mut handed = batch.clone();
        for (j, observation) in handed.observations.iter_mut().enumerate() {
            if j >= born {
                observation.score = Some(BELOW_ALL);
            } else if !self.scores_matter {
                observation.score = None;
            }
        }
        let mut tracker = self.rust.clone();
        let outcome = panics::unless_an_age_overflows(|| tracker.process_batch_reported(&handed));
        match outcome {
            Err(age) => Err(Stopped {
                stage: Stage::Steps,
                number: 8,
                place: age,
                left: None,
            }),
            Ok(Err(error)) => Err(Stopped {
                stage: stage_of(refusal::place(&error)),
                number: refusal::of(&error),
                place: refusal::place(&error),
                left: Some(Box::new(tracker)),
            }),
            Ok(Ok((_, report))) => Ok((tracker, report)),
        }
    }

    /// Whether no limit was reached on the way to this outcome. Births only add tracks; and each detection that
    /// was left alone may have added a candidate.
    fn has_kept_limits(&self, after: &Cartesian3DTracker, report: &BatchReport3D) -> bool {
        let alone = |a: &&ObservationAssociation| a.outcome == ObservationOutcome::Unmatched;
        let added = report.associations.iter().filter(alone).count();
        after.active_track_count() <= PLACES && self.candidates(&self.rust) + added <= PLACES
    }

    /// The candidates of a tracker with these settings.
    fn candidates(&self, tracker: &Cartesian3DTracker) -> usize {
        match self.candidates_are_kept {
            true => TrackerState::of(tracker).birth_candidates.len(),
            false => 0,
        }
    }

    /// Lets one detection more take part in the births at a time, and stops at the first that a limit or the
    /// Rust refuses: the limit where it is both. A next number of 2⁶⁴−1 is out of any run's reach.
    fn within_limits(
        &self,
        batch: &ObservationBatch3D,
    ) -> Result<(Cartesian3DTracker, BatchReport3D), Stopped> {
        let (mut before, mut report) = self.run(batch, 0)?;
        for born in 1..=batch.observations.len() {
            let full = before.active_track_count() == PLACES;
            let (after, told) = self.run(batch, born).map_err(|stopped| match full {
                true => Stopped::at_a_limit("tracks"),
                false => stopped,
            })?;
            if after.active_track_count() > PLACES {
                return Err(Stopped::at_a_limit("tracks"));
            }
            if self.candidates(&after) > PLACES {
                return Err(Stopped::at_a_limit("candidates"));
            }
            (before, report) = (after, told);
        }
        Ok((before, report))
    }
}

/// The Rust names the place of an error by its context.
fn stage_of(place: &str) -> Stage {
    match place {
        "frame" | "time" | "sequence" => Stage::Checks,
        "position3d position" | "position3d velocity" | "position3d measurement covariance" => {
            Stage::Checks
        }
        "initial state" | "initial state covariance" => Stage::Births,
        _ => Stage::Steps,
    }
}
