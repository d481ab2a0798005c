//! What a sequence of calls meets of the specification: each refusal by its place, each branch, each limit. A run counts them.

use factor_tracker_core::judge::detections::{distance, verdict, Detection, Prior, Rule, Verdict};
use factor_tracker_core::judge::filter::Filter;
use factor_tracker_core::judge::report::Report;
use factor_tracker_core::judge::state::{CandidateState, TrackState, TrackerState};
use factor_tracker_core::tracker::{Cartesian3DTrackerConfig, ObservationOutcome};
use factor_tracker_core::types::{
    ObservationBatch3D, Position3DObservation, TrackLifecycleState as Life,
};
use trials::Counts;

use super::{Answer, Call};

/// The names that are counted, in the order of the table.
pub const NAMES: &[&str] = &[
    "new: accepted",
    "new: field 1, tentative timeout",
    "new: field 2, confirmed to lost",
    "new: field 3, lost to delete",
    "new: field 4, contributing sensors",
    "new: field 5, score threshold",
    "new: field 6, acceleration density",
    "new: field 7, velocity variance",
    "new: field 8, gate",
    "new: field 9, class penalty",
    "new: field 10, birth distance",
    "new: field 11, persistence",
    "new: field 12, radius",
    "new: field 13, candidate timeout",
    "new: field 14, velocity deviation",
    "new: field 15, recent window",
    "new: field 16, frame name too long",
    "new: field 17, over 16 contributing sensors",
    "predict: done",
    "predict: 3",
    "predict: 8, time difference overflows",
    "predict: 5, noise not finite",
    "predict: 9, result not finite",
    "predict: a mark of the last batch stays",
    "prior: set",
    "prior: 12, confidence not finite",
    "prior: 12, no such track",
    "prior: confidence below 0",
    "prior: confidence above 1",
    "batch: accepted",
    "batch: 11, over 64 detections",
    "batch: 2",
    "batch: 3",
    "batch: 4",
    "batch: 5, position",
    "batch: 5, velocity",
    "batch: 5, covariance",
    "batch: 6",
    "batch: 7, covariance of a detection",
    "batch: 11, a 33rd sensor",
    "batch: 8, time difference overflows",
    "batch: 5, noise not finite",
    "batch: 9, prediction not finite",
    "batch: 7, distance",
    "batch: 9, distance or the position's gain",
    "batch: 8, window age overflows",
    "batch: 10, assignment",
    "batch: 9, position's update",
    "batch: 5, velocity's variance",
    "batch: 7, velocity's variance",
    "batch: 7, velocity's update",
    VELOCITY_GAIN,
    "batch: 9, velocity's update",
    "batch: 8, candidate age overflows",
    "batch: 11, a 65th candidate",
    "batch: 11, a 65th track",
    "batch: 5, birth",
    "batch: 7, birth",
    "life: Tentative dropped",
    "life: Tentative confirmed",
    "life: Confirmed becomes Lost",
    "life: Lost dropped",
    "life: Confirmed dropped in one call",
    "life: Lost seen again",
    "life: age equal to the tentative timeout",
    "life: age equal to the confirmed timeout",
    "life: age equal to the lost timeout",
    "life: an age that overflows counts as 0",
    "life: one time counted once",
    "time: equal to the last",
    "time: the least of 64 bits",
    "time: the largest of 64 bits",
    "pair: made",
    "pair: made at cost 0",
    "pair: made with a prior's penalty",
    "pair: made by one of two equal detections",
    "pair: classes forbid",
    "pair: distance equal to the gate",
    "pair: distance one double above the gate",
    "pair: distance one double below the gate",
    "pair: the penalty forbids",
    "pair: dearer with its penalty than alone",
    "cascade: pairs of both stages",
    "cascade: age equal to the window",
    "cascade: age one above the window",
    "update: with a velocity",
    "update: velocity given, but not taken",
    "update: a class is learned",
    "update: the oldest contributing sensor goes",
    "update: a sensor that contributed already",
    "update: a mark is cleared",
    "birth: a track",
    "birth: with a velocity",
    "birth: a score NaN",
    "birth: score below the threshold",
    "birth: score equal to the threshold",
    "birth: too near a confirmed track",
    "birth: at the distance from a confirmed track",
    "birth: a candidate is left",
    "birth: a candidate is seen again",
    "birth: a candidate begins a track",
    "birth: its sightings confirm a track",
    "birth: a candidate is forgotten",
    "birth: a candidate's age equal to its timeout",
    "birth: at the radius from a candidate",
    "birth: two candidates equally near",
    "limit: 64 detections",
    "limit: 64 tracks",
    "limit: 64 candidates",
    "limit: 32 sensors",
    "limit: 16 contributing sensors",
    ALL,
];

/// The gain comes from a covariance that the velocity's Cholesky has passed: no sequence is known in which it overflows.
pub const VELOCITY_GAIN: &str = "batch: 9, velocity's gain (no sequence is known that meets it)";

/// Every call is counted under it.
const ALL: &str = "calls in all";

/// The refusals of a batch by number and place, as the judge names it.
const BATCH_REFUSALS: &[(u32, &str, &str)] = &[
    (11, "detections", "batch: 11, over 64 detections"),
    (2, "frame", "batch: 2"),
    (3, "time", "batch: 3"),
    (4, "sequence", "batch: 4"),
    (5, "position3d position", "batch: 5, position"),
    (5, "position3d velocity", "batch: 5, velocity"),
    (
        5,
        "position3d measurement covariance",
        "batch: 5, covariance",
    ),
    (6, "position3d measurement covariance", "batch: 6"),
    (
        7,
        "position3d measurement covariance",
        "batch: 7, covariance of a detection",
    ),
    (11, "sensors", "batch: 11, a 33rd sensor"),
    (8, "time difference", "batch: 8, time difference overflows"),
    (5, "process noise", "batch: 5, noise not finite"),
    (9, "Kalman prediction", "batch: 9, prediction not finite"),
    (7, "innovation covariance", "batch: 7, distance"),
    (
        9,
        "innovation covariance",
        "batch: 9, distance or the position's gain",
    ),
    (8, "window age", "batch: 8, window age overflows"),
    (10, "assignment", "batch: 10, assignment"),
    (9, "Kalman update", "batch: 9, position's update"),
    (5, "measurement covariance", "batch: 5, velocity's variance"),
    (7, "measurement covariance", "batch: 7, velocity's variance"),
    (
        7,
        "velocity's innovation covariance",
        "batch: 7, velocity's update",
    ),
    (9, "velocity's innovation covariance", VELOCITY_GAIN),
    (9, "velocity's Kalman update", "batch: 9, velocity's update"),
    (8, "candidate age", "batch: 8, candidate age overflows"),
    (11, "candidates", "batch: 11, a 65th candidate"),
    (11, "tracks", "batch: 11, a 65th track"),
    (5, "initial state covariance", "batch: 5, birth"),
    (7, "initial state covariance", "batch: 7, birth"),
];

/// A call, with the states before and after it.
pub struct Met<'a> {
    pub settings: &'a Cartesian3DTrackerConfig,
    pub before: &'a TrackerState,
    pub after: &'a TrackerState,
    pub counts: &'a mut Counts,
}

/// The first call of a sequence, with the bad field if there is one.
pub fn made(bad: Option<u32>, counts: &mut Counts) {
    counts.add(ALL);
    counts.add(NAMES[bad.unwrap_or(0) as usize]);
}

impl Met<'_> {
    /// A later call, and where it stopped if it was refused.
    pub fn called(&mut self, call: &Call, answer: &Answer, stopped_at: &str) {
        self.counts.add(ALL);
        match (call, answer) {
            (Call::PredictTo(time), Answer::Done) => self.predicted(*time),
            (Call::PredictTo(_), Answer::Refused(number)) => self.counts.add(match number {
                3 => "predict: 3",
                8 => "predict: 8, time difference overflows",
                5 => "predict: 5, noise not finite",
                _ => "predict: 9, result not finite",
            }),
            (Call::SetClassPrior { confidence, .. }, _) => self.prior(*confidence, answer),
            (Call::ProcessBatch(batch), Answer::Reported(report)) => self.batch(batch, report),
            (_, Answer::Refused(number)) => self.refused(*number, stopped_at),
            _ => panic!("no such answer"),
        }
    }

    fn refused(&mut self, number: u32, stopped_at: &str) {
        let found = BATCH_REFUSALS
            .iter()
            .find(|(n, place, _)| (*n, *place) == (number, stopped_at));
        let (_, _, name) = found.unwrap_or_else(|| panic!("refused: {number} at {stopped_at}"));
        self.counts.add(name);
    }

    fn predicted(&mut self, time: i64) {
        self.counts.add("predict: done");
        let marked = self.after.tracks.iter().any(|t| t.updated_this_batch);
        self.counts
            .add_if(marked, "predict: a mark of the last batch stays");
        self.time(time);
    }

    fn prior(&mut self, confidence: f64, answer: &Answer) {
        let counts = &mut self.counts;
        match answer {
            Answer::Refused(_) if !confidence.is_finite() => {
                counts.add("prior: 12, confidence not finite")
            }
            Answer::Refused(_) => counts.add("prior: 12, no such track"),
            _ => {
                counts.add("prior: set");
                counts.add_if(confidence < 0.0, "prior: confidence below 0");
                counts.add_if(confidence > 1.0, "prior: confidence above 1");
            }
        }
    }

    fn time(&mut self, now: i64) {
        let counts = &mut self.counts;
        counts.add_if(
            self.before.last_time == Some(now),
            "time: equal to the last",
        );
        counts.add_if(now == i64::MIN, "time: the least of 64 bits");
        counts.add_if(now == i64::MAX, "time: the largest of 64 bits");
        for track in &self.before.tracks {
            let later = self.after.tracks.iter().find(|t| t.id == track.id);
            self.life(track, later.map(|t| t.lifecycle.state), now);
        }
    }

    fn life(&mut self, track: &TrackState, later: Option<Life>, now: i64) {
        let (life, common) = (&track.lifecycle, &self.settings.common);
        let since = life.last_observation_timestamp.unwrap_or(life.created_at);
        let age = now.checked_sub(since);
        let counts = &mut self.counts;
        match (life.state, later) {
            (Life::Tentative, None) => counts.add("life: Tentative dropped"),
            (Life::Confirmed, None) => counts.add("life: Confirmed dropped in one call"),
            (_, None) => counts.add("life: Lost dropped"),
            (Life::Tentative, Some(Life::Confirmed)) => counts.add("life: Tentative confirmed"),
            (Life::Confirmed, Some(Life::Lost)) => counts.add("life: Confirmed becomes Lost"),
            (Life::Lost, Some(Life::Confirmed)) => counts.add("life: Lost seen again"),
            _ => (),
        }
        let (timeout, name) = match life.state {
            Life::Tentative => (
                common.tentative_timeout_ns,
                "life: age equal to the tentative timeout",
            ),
            Life::Confirmed => (
                common.confirmed_to_lost_ns,
                "life: age equal to the confirmed timeout",
            ),
            _ => (
                common.lost_to_delete_ns,
                "life: age equal to the lost timeout",
            ),
        };
        counts.add_if(age == Some(timeout), name);
        counts.add_if(age.is_none(), "life: an age that overflows counts as 0");
    }

    fn batch(&mut self, batch: &ObservationBatch3D, report: &Report) {
        self.counts.add("batch: accepted");
        self.time(batch.timestamp.as_nanos());
        for (seen, told) in batch.observations.iter().zip(&report.associations) {
            let track = |state: &TrackerState| {
                let found = state.tracks.iter().find(|t| Some(t.id) == told.track_id);
                found.cloned()
            };
            match told.outcome {
                ObservationOutcome::Updated => {
                    let (before, after) = (track(self.before), track(self.after));
                    self.pair(batch, seen, told.cost);
                    self.update(seen, &before.expect("a track"), &after.expect("a track"));
                }
                ObservationOutcome::Spawned => {
                    let born = track(self.after).expect("a track");
                    self.birth(seen, &born);
                }
                ObservationOutcome::Unmatched => self.alone(seen, batch.timestamp.as_nanos()),
            }
        }
        self.classes(batch);
        self.gate(batch, report);
        self.cascade(batch, report);
        self.candidates(batch.timestamp.as_nanos());
        self.limits(batch);
    }

    fn pair(
        &mut self,
        batch: &ObservationBatch3D,
        seen: &Position3DObservation,
        cost: Option<u64>,
    ) {
        let counts = &mut self.counts;
        counts.add("pair: made");
        counts.add_if(cost == Some(0), "pair: made at cost 0");
        let equal = batch.observations.iter().filter(|other| *other == seen);
        counts.add_if(
            equal.count() > 1,
            "pair: made by one of two equal detections",
        );
    }

    fn update(&mut self, seen: &Position3DObservation, before: &TrackState, after: &TrackState) {
        let counts = &mut self.counts;
        let taken = self.settings.velocity_measurement_std.is_some();
        let measured = seen.velocity.is_some();
        counts.add_if(measured && taken, "update: with a velocity");
        counts.add_if(measured && !taken, "update: velocity given, but not taken");
        let learned = before.class_label.is_none() && after.class_label.is_some();
        counts.add_if(learned, "update: a class is learned");
        let (old, new) = (&before.contributing_sensors, &after.contributing_sensors);
        let full = old.len() == self.settings.common.max_contributing_sensors;
        counts.add_if(
            full && old != new,
            "update: the oldest contributing sensor goes",
        );
        counts.add_if(old == new, "update: a sensor that contributed already");
        let same =
            before.lifecycle.observation_times_count == after.lifecycle.observation_times_count;
        counts.add_if(same, "life: one time counted once");
        let prior = before.class_prior.zip(seen.class_label);
        let fights = prior.is_some_and(|((label, confidence), seen)| {
            label != seen.value() && f64::from_bits(confidence) > 0.0
        });
        let penalty = self.settings.class_prior_penalty > 0.0;
        counts.add_if(fights && penalty, "pair: made with a prior's penalty");
    }

    fn birth(&mut self, seen: &Position3DObservation, born: &TrackState) {
        let counts = &mut self.counts;
        counts.add("birth: a track");
        let taken = self.settings.velocity_measurement_std.is_some();
        counts.add_if(taken && seen.velocity.is_some(), "birth: with a velocity");
        let threshold = self.settings.common.new_track_score_threshold;
        let not_a_number = seen.score.is_some_and(f64::is_nan);
        counts.add_if(not_a_number && threshold.is_some(), "birth: a score NaN");
        let equal = seen.score.is_some() && seen.score == threshold;
        counts.add_if(equal, "birth: score equal to the threshold");
        let nearest = |track: &TrackState| distance(place(&track.state), place_of(seen));
        let confirmed = |t: &&TrackState| t.id != born.id && t.lifecycle.state == Life::Confirmed;
        let mut others = self.after.tracks.iter().filter(confirmed);
        let at = others.any(|track| Some(nearest(track)) == self.settings.min_birth_distance_m);
        counts.add_if(at, "birth: at the distance from a confirmed track");
        let credited = born.lifecycle.observation_times_count > 1;
        counts.add_if(credited, "birth: a candidate begins a track");
        let needed = self.settings.common.confirm_min_observation_times > 1;
        let confirmed = born.lifecycle.state == Life::Confirmed;
        counts.add_if(
            credited && needed && confirmed,
            "birth: its sightings confirm a track",
        );
    }

    fn alone(&mut self, seen: &Position3DObservation, now: i64) {
        let threshold = self.settings.common.new_track_score_threshold;
        let low = seen.score.zip(threshold).is_some_and(|(s, t)| s < t);
        self.counts.add(match low {
            true => "birth: score below the threshold",
            false => "birth: too near a confirmed track",
        });
        let radius = self.settings.birth_candidate_radius_m;
        let earlier = self.before.birth_candidates.iter();
        let earlier = earlier.filter(|candidate| candidate.last_seen != now);
        let far = |c: &CandidateState| distance(place(&c.position), place_of(seen));
        let distances: Vec<f64> = earlier.map(far).collect();
        self.counts.add_if(
            distances.contains(&radius),
            "birth: at the radius from a candidate",
        );
        let least = distances.iter().copied().fold(radius, f64::min);
        let equal = distances.iter().filter(|d| **d == least).count() > 1;
        self.counts.add_if(
            least < radius && equal,
            "birth: two candidates equally near",
        );
    }

    fn classes(&mut self, batch: &ObservationBatch3D) {
        let labels = |t: &TrackState| t.class_label;
        let known: Vec<u32> = self.before.tracks.iter().filter_map(labels).collect();
        let forbids = |d: &Position3DObservation| {
            let seen = d.class_label.map(|label| label.value());
            seen.is_some_and(|seen| known.iter().any(|label| *label != seen))
        };
        let forbids = batch.observations.iter().any(forbids);
        self.counts.add_if(forbids, "pair: classes forbid");
    }

    /// Where one track at the batch's time meets one detection, the pair beside the gate.
    fn gate(&mut self, batch: &ObservationBatch3D, report: &Report) {
        let ([track], [seen]) = (&self.before.tracks[..], &batch.observations[..]) else {
            return;
        };
        let Some(filter) = filter_of(track) else {
            return;
        };
        if track.state_timestamp != batch.timestamp.as_nanos() {
            return;
        }
        let (seen, rule) = (plain(seen), rule_of(self.settings));
        let judged = verdict(&filter, track.class_label, prior_of(track), &seen, rule);
        let alone = report.associations[0].outcome != ObservationOutcome::Updated;
        let dearer = matches!(judged, Verdict::Allowed(cost) if cost > rule.gate) && alone;
        let forbids = judged == Verdict::CostForbids;
        let counts = &mut self.counts;
        counts.add_if(forbids, "pair: the penalty forbids");
        counts.add_if(dearer, "pair: dearer with its penalty than alone");
        let Ok(distance) = filter.squared_distance(seen.position, seen.covariance) else {
            return;
        };
        let (above, below) = (rule.gate.next_up(), rule.gate.next_down());
        counts.add_if(distance == rule.gate, "pair: distance equal to the gate");
        counts.add_if(
            distance == above,
            "pair: distance one double above the gate",
        );
        counts.add_if(
            distance == below,
            "pair: distance one double below the gate",
        );
    }

    fn cascade(&mut self, batch: &ObservationBatch3D, report: &Report) {
        let Some(window) = self.settings.recent_track_window_ns else {
            return;
        };
        let now = batch.timestamp.as_nanos();
        let (mut stages, counts) = ([false; 2], &mut self.counts);
        for track in &self.before.tracks {
            let last = track.lifecycle.last_observation_timestamp;
            let Some(age) = last.and_then(|last| now.checked_sub(last)) else {
                continue;
            };
            let kept = self.after.tracks.iter().any(|t| t.id == track.id);
            counts.add_if(kept && age == window, "cascade: age equal to the window");
            let above = window.checked_add(1) == Some(age);
            counts.add_if(kept && above, "cascade: age one above the window");
            let paired = |a: &&_| is_update_of(a, track.id);
            if report.associations.iter().find(paired).is_some() {
                stages[usize::from(age > window)] = true;
            }
        }
        counts.add_if(stages == [true; 2], "cascade: pairs of both stages");
    }

    fn candidates(&mut self, now: i64) {
        let (timeout, counts) = (self.settings.birth_candidate_timeout_ns, &mut self.counts);
        for candidate in &self.before.birth_candidates {
            let age = now.checked_sub(candidate.last_seen);
            counts.add_if(age > Some(timeout), "birth: a candidate is forgotten");
            counts.add_if(
                age == Some(timeout),
                "birth: a candidate's age equal to its timeout",
            );
        }
        for candidate in &self.after.birth_candidates {
            if candidate.last_seen == now && !self.before.birth_candidates.contains(candidate) {
                counts.add(match candidate.sightings {
                    1 => "birth: a candidate is left",
                    _ => "birth: a candidate is seen again",
                });
            }
        }
    }

    fn limits(&mut self, batch: &ObservationBatch3D) {
        let (after, counts) = (self.after, &mut self.counts);
        let cleared = |t: &TrackState| {
            let later = after.tracks.iter().find(|later| later.id == t.id);
            t.updated_this_batch && later.is_some_and(|later| !later.updated_this_batch)
        };
        counts.add_if(
            self.before.tracks.iter().any(cleared),
            "update: a mark is cleared",
        );
        counts.add_if(batch.observations.len() == 64, "limit: 64 detections");
        counts.add_if(after.tracks.len() == 64, "limit: 64 tracks");
        counts.add_if(after.birth_candidates.len() == 64, "limit: 64 candidates");
        counts.add_if(after.last_sequence.len() == 32, "limit: 32 sensors");
        let full = |t: &TrackState| t.contributing_sensors.len() == 16;
        counts.add_if(
            after.tracks.iter().any(full),
            "limit: 16 contributing sensors",
        );
    }
}

fn is_update_of(a: &factor_tracker_core::judge::report::Association, id: u64) -> bool {
    a.outcome == ObservationOutcome::Updated && a.track_id == Some(id)
}

/// The first three of some bits, as a place.
fn place(bits: &[u64]) -> [f64; 3] {
    std::array::from_fn(|i| f64::from_bits(bits[i]))
}

fn place_of(seen: &Position3DObservation) -> [f64; 3] {
    std::array::from_fn(|i| seen.position[i])
}

pub(crate) fn rule_of(settings: &Cartesian3DTrackerConfig) -> Rule {
    Rule {
        gate: settings.gate_squared_mahalanobis,
        penalty: settings.class_prior_penalty,
    }
}

pub(crate) fn prior_of(track: &TrackState) -> Option<Prior> {
    track.class_prior.map(|(label, confidence)| Prior {
        label,
        confidence: f64::from_bits(confidence),
    })
}

pub(crate) fn filter_of(track: &TrackState) -> Option<Filter> {
    let number = |bits: &u64| f64::from_bits(*bits);
    let state: Vec<f64> = track.state.iter().map(number).collect();
    let covariance: Vec<f64> = track.covariance.iter().map(number).collect();
    let rows = std::array::from_fn(|i| std::array::from_fn(|j| covariance[6 * i + j]));
    Filter::new(std::array::from_fn(|i| state[i]), rows).ok()
}

pub(crate) fn plain(seen: &Position3DObservation) -> Detection {
    Detection {
        position: std::array::from_fn(|i| seen.position[i]),
        covariance: std::array::from_fn(|i| std::array::from_fn(|j| seen.covariance[(i, j)])),
        velocity: None,
        class: seen.class_label.map(|label| label.value()),
        score: None,
    }
}
