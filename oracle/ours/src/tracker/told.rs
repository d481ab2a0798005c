//! What a record tells, in the judge's words. A record that tells it otherwise than a call writes it (a flag that is neither 0 nor 1,
//! a value beside a flag of 0, something behind a count) tells nothing.

use cases::calls::Answer;
use factor_tracker_core::judge::lifecycle::LifecycleRecord;
use factor_tracker_core::judge::report::{Association, Report};
use factor_tracker_core::judge::state::{CandidateState, TrackState, TrackerState};
use factor_tracker_core::tracker::ObservationOutcome;
use factor_tracker_core::types::TrackLifecycleState;

use super::{PkAssociation, PkReport, PkTrack, PkTracker};

pub fn state(tracker: &PkTracker) -> Option<TrackerState> {
    let sequences = tracker.sequences.get(..tracker.sequence_count)?;
    let candidates = tracker.candidates.get(..tracker.candidate_count)?;
    let tracks = tracker.tracks.get(..tracker.track_count)?;
    Some(TrackerState {
        next_track_id: tracker.next_track_id,
        last_time: optional(tracker.has_last_time, tracker.last_time)?,
        last_sequence: sequences.iter().map(|s| (s.sensor, s.sequence)).collect(),
        tracks: tracks.iter().map(track).collect::<Option<_>>()?,
        birth_candidates: candidates
            .iter()
            .map(|candidate| CandidateState {
                position: candidate.position.to_vec(),
                last_seen: candidate.last_seen,
                sightings: candidate.sightings,
            })
            .collect(),
    })
}

fn track(track: &PkTrack) -> Option<TrackState> {
    let (sensors, behind) = track.sensors.ids.split_at_checked(track.sensors.count)?;
    let prior = (track.prior_label, track.prior_confidence);
    if behind.iter().any(|id| *id != 0) || track.reserved != 0 {
        return None;
    }
    Some(TrackState {
        id: track.id,
        state: track.filter.state.to_vec(),
        covariance: track.filter.covariance.to_vec(),
        lifecycle: LifecycleRecord {
            state: lifecycle(track.lifecycle)?,
            created_at: track.created_at,
            last_observation_timestamp: optional(
                track.has_last_observation,
                track.last_observation,
            )?,
            last_counted_timestamp: optional(track.has_last_counted, track.last_counted)?,
            observation_times_count: track.observation_times,
        },
        class_label: optional(track.has_class, track.class_label)?,
        class_prior: optional(track.has_prior, prior)?,
        state_timestamp: track.state_timestamp,
        last_update_sensor: optional(track.has_last_sensor, track.last_sensor)?,
        contributing_sensors: sensors.to_vec(),
        updated_this_batch: optional(track.updated, ())?.is_some(),
    })
}

/// A value that may be missing, and is zero then.
fn optional<T: Default + PartialEq>(flag: u32, item: T) -> Option<Option<T>> {
    match flag {
        0 if item == T::default() => Some(None),
        1 => Some(Some(item)),
        _ => None,
    }
}

fn lifecycle(number: u32) -> Option<TrackLifecycleState> {
    Some(match number {
        0 => TrackLifecycleState::Tentative,
        1 => TrackLifecycleState::Confirmed,
        2 => TrackLifecycleState::Lost,
        3 => TrackLifecycleState::Deleted,
        _ => return None,
    })
}

pub fn report(report: &PkReport) -> Option<Answer> {
    let (told, behind) = report
        .associations
        .split_at_checked(report.association_count)?;
    let (unmatched, no_more) = report
        .unmatched_track_ids
        .split_at_checked(report.unmatched_track_count)?;
    let nothing = |a: &PkAssociation| (a.observation_index, a.reserved) == (0, 0) && is_blank(a);
    if !behind.iter().all(nothing) || no_more.iter().any(|id| *id != 0) {
        return None;
    }
    Some(Answer::Reported(Report {
        timestamp: report.timestamp,
        sensor: report.sensor_id,
        associations: (0..)
            .zip(told)
            .map(|(j, told)| association(j, told))
            .collect::<Option<_>>()?,
        unmatched_track_ids: unmatched.to_vec(),
    }))
}

fn is_blank(told: &PkAssociation) -> bool {
    (told.track_id, told.cost) == (0, 0)
        && (told.outcome, told.has_track, told.has_cost) == (0, 0, 0)
}

fn association(j: usize, told: &PkAssociation) -> Option<Association> {
    if (told.observation_index, told.reserved) != (j, 0) {
        return None;
    }
    Some(Association {
        outcome: match told.outcome {
            0 => ObservationOutcome::Unmatched,
            1 => ObservationOutcome::Updated,
            2 => ObservationOutcome::Spawned,
            _ => return None,
        },
        track_id: optional(told.has_track, told.track_id)?,
        cost: optional(told.has_cost, told.cost)?,
    })
}
