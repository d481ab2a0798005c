//! Sequences of calls on a tracker as lines, for a program that replays them. A line is a letter and four numbers, as `Line` writes it; a
//! number is a double by its bits, a time as two's complement, any other number as it is. The words of a record are its fields in the order
//! of include/pikowhanu.h, one number each, a flag before or behind its value as there, a frame's name as four numbers of eight bytes, the
//! first byte highest, and its length; what is reserved is left out. What is missing is 0 beside a flag of 0.
//!
//! Lines that are read:
//!   s four words of settings, behind those that are loaded: 26 words in seven lines, zeros after the last. Answers nothing.
//!   n: a new tracker under the settings that are loaded; none is loaded then. Answers n, 0, 0 and the digest of the state; or n and the number
//!     of the first bad field, and then the tracker before it stays.
//!   m time: `predict_to`. Answers m, 0 or the refusal's number, 0, and the digest of the state.
//!   c track, label, confidence: `set_class_prior`. Answers c in the same way.
//!   d four words of a detection, behind those that are loaded: 19 words in five lines, a zero after the last. Answers nothing.
//!   f four numbers: a frame's name. Answers nothing.
//!   b sensor, sequence, time, and the frame's length times 2^32 and the count of detections: `process_batch_reported` of what is loaded; none
//!     is loaded then. No more than the first 64 detections are loaded, and no more than the first 32 bytes of a name. Answers b, 0 or the
//!     refusal's number, the digest of the report, and the digest of the state.
//!   e: answers e and how many words the state has; then these in lines w of four, zeros after the last.
//! The words of a state are those of pk_tracker, the places that are taken alone and without the settings: the tracks, their count, the next
//! number, the last time, the sequences, their count, the candidates, their count, and the last time's flag. The words of a report are those of
//! pk_report, likewise; a refused batch has its number and four zeros.
//! The digest of words is 0 at first; each word, first its higher and then its lower 32 bits, makes it (digest × 1000003 + bits) modulo
//! 4294967291. No step of it is 2^64 or more.

use factor_tracker_core::judge::report::{Association, Report};
use factor_tracker_core::judge::state::{CandidateState, TrackState, TrackerState};
use factor_tracker_core::tracker::{Cartesian3DTrackerConfig, ObservationOutcome};
use factor_tracker_core::types::{
    FrameId, ObservationBatch3D, Position3DObservation, TrackLifecycleState,
};

use cases::calls::{Answer, Call, CallReply};

use crate::Line;

/// Most detections of a batch, and bytes of a name, that are loaded.
const DETECTIONS: usize = 64;
const FRAME: usize = 32;

const FACTOR: u64 = 1_000_003;
const MODULUS: u64 = 4_294_967_291;

/// The lines of a new tracker, and its answer.
pub fn new(settings: &Cartesian3DTrackerConfig, reply: &CallReply) -> (Vec<Line>, Line) {
    let mut calls = four_by_four('s', &settings_words(settings));
    calls.push(Line::of('n', 0));
    let field = match reply.answer {
        Answer::BadField(field) => u64::from(field),
        _ => 0,
    };
    (calls, Line::new('n', [field, 0, state_digest(reply), 0]))
}

/// The lines of a call, and its answer.
pub fn call(call: &Call, reply: &CallReply) -> (Vec<Line>, Line) {
    let code = match &reply.answer {
        Answer::Refused(number) => u64::from(*number),
        _ => 0,
    };
    let (calls, letter, report) = match call {
        Call::PredictTo(time) => (vec![Line::of('m', *time as u64)], 'm', 0),
        Call::SetClassPrior {
            track,
            label,
            confidence,
        } => {
            let words = [*track, u64::from(*label), confidence.to_bits(), 0];
            (vec![Line::new('c', words)], 'c', 0)
        }
        Call::ProcessBatch(batch) => {
            let report = digest(&report_words(code, &reply.answer));
            (batch_lines(batch), 'b', report)
        }
    };
    let answer = Line::new(letter, [code, report, state_digest(reply), 0]);
    (calls, answer)
}

/// The line that asks for a state, and the state.
pub fn whole(state: &TrackerState) -> (Line, Vec<Line>) {
    let words = state_words(state);
    let count = Line::of('e', words.len() as u64);
    let lines = std::iter::once(count).chain(four_by_four('w', &words));
    (Line::of('e', 0), lines.collect())
}

/// The words' digest.
pub fn digest(words: &[u64]) -> u64 {
    let halves = words.iter().flat_map(|word| [word >> 32, word % (1 << 32)]);
    halves.fold(0, |digest, bits| (digest * FACTOR + bits) % MODULUS)
}

/// The digest of the state after a call; 0 where there is none.
fn state_digest(reply: &CallReply) -> u64 {
    let words = reply.state.as_ref().map(state_words);
    words.map_or(0, |words| digest(&words))
}

fn four_by_four(letter: char, words: &[u64]) -> Vec<Line> {
    let line = |four: &[u64]| {
        let at = |place: usize| four.get(place).copied().unwrap_or(0);
        Line::new(letter, [0, 1, 2, 3].map(at))
    };
    words.chunks(4).map(line).collect()
}

fn batch_lines(batch: &ObservationBatch3D) -> Vec<Line> {
    let taken = batch.observations.iter().take(DETECTIONS);
    let mut lines: Vec<Line> = taken
        .flat_map(|seen| four_by_four('d', &detection_words(seen)))
        .collect();
    lines.push(Line::new('f', frame(&batch.frame_id)));
    let sizes = (batch.frame_id.as_str().len() as u64) << 32 | batch.observations.len() as u64;
    let head = [
        u64::from(batch.sensor_id.value()),
        batch.sequence,
        batch.timestamp.as_nanos() as u64,
        sizes,
    ];
    lines.push(Line::new('b', head));
    lines
}

/// The first bytes of a name, zeros after them, eight to a number.
fn frame(name: &FrameId) -> [u64; 4] {
    let mut bytes = [0; FRAME];
    for (place, byte) in bytes.iter_mut().zip(name.as_str().bytes()) {
        *place = byte;
    }
    let eight = |k: usize| bytes[8 * k..][..8].iter();
    [0, 1, 2, 3].map(|k| eight(k).fold(0, |word, byte| word << 8 | u64::from(*byte)))
}

/// A flag, and the word beside it.
fn optional(word: Option<u64>) -> (u64, u64) {
    (u64::from(word.is_some()), word.unwrap_or(0))
}

fn float(x: Option<f64>) -> (u64, u64) {
    optional(x.map(f64::to_bits))
}

fn settings_words(s: &Cartesian3DTrackerConfig) -> Vec<u64> {
    let c = &s.common;
    let floats = [
        s.accel_spectral_density,
        s.initial_velocity_variance,
        s.gate_squared_mahalanobis,
        s.class_prior_penalty,
        s.birth_candidate_radius_m,
    ];
    let optional = [
        float(c.new_track_score_threshold),
        optional(s.recent_track_window_ns.map(|time| time as u64)),
        float(s.min_birth_distance_m),
        float(s.velocity_measurement_std),
        optional(s.birth_persistence.map(u64::from)),
    ];
    let mut words = vec![
        u64::from(c.confirm_min_observation_times),
        c.tentative_timeout_ns as u64,
        c.confirmed_to_lost_ns as u64,
        c.lost_to_delete_ns as u64,
        c.max_contributing_sensors as u64,
    ];
    words.extend(frame(&s.frame_id));
    words.push(s.frame_id.as_str().len() as u64);
    words.extend(floats.map(f64::to_bits));
    words.push(s.birth_candidate_timeout_ns as u64);
    words.extend(optional.map(|(_, word)| word));
    words.extend(optional.map(|(flag, _)| flag));
    words
}

fn detection_words(seen: &Position3DObservation) -> Vec<u64> {
    let mut words: Vec<u64> = seen.position.iter().map(|x| x.to_bits()).collect();
    words.extend((0..9).map(|k| seen.covariance[(k / 3, k % 3)].to_bits()));
    let velocity = seen.velocity.map_or([0.0; 2], |v| [v.x, v.y]);
    words.extend(velocity.map(f64::to_bits));
    let (score, class) = (
        float(seen.score),
        optional(seen.class_label.map(|label| u64::from(label.value()))),
    );
    words.push(score.1);
    words.extend([
        u64::from(seen.velocity.is_some()),
        score.0,
        class.0,
        class.1,
    ]);
    words
}

pub fn state_words(state: &TrackerState) -> Vec<u64> {
    let last_time = optional(state.last_time.map(|time| time as u64));
    let mut words: Vec<u64> = state.tracks.iter().flat_map(track_words).collect();
    words.extend([state.tracks.len() as u64, state.next_track_id, last_time.1]);
    for (sensor, sequence) in &state.last_sequence {
        words.extend([u64::from(*sensor), *sequence]);
    }
    words.push(state.last_sequence.len() as u64);
    words.extend(state.birth_candidates.iter().flat_map(candidate_words));
    words.extend([state.birth_candidates.len() as u64, last_time.0]);
    words
}

fn candidate_words(candidate: &CandidateState) -> Vec<u64> {
    let mut words = candidate.position.clone();
    words.extend([candidate.last_seen as u64, u64::from(candidate.sightings)]);
    words
}

fn track_words(track: &TrackState) -> Vec<u64> {
    let life = &track.lifecycle;
    let time = |time: Option<i64>| optional(time.map(|time| time as u64));
    let (seen, counted) = (
        time(life.last_observation_timestamp),
        time(life.last_counted_timestamp),
    );
    let class = optional(track.class_label.map(u64::from));
    let (label, confidence) = track.class_prior.unwrap_or((0, 0));
    let sensor = optional(track.last_update_sensor.map(u64::from));
    let mut words = vec![track.id];
    words.extend(&track.state);
    words.extend(&track.covariance);
    words.extend([life.created_at as u64, seen.1, counted.1]);
    words.extend([track.state_timestamp as u64, confidence]);
    let sensors = &track.contributing_sensors;
    words.extend((0..16).map(|k| sensors.get(k).copied().map_or(0, u64::from)));
    words.push(sensors.len() as u64);
    words.push(life_number(life.state));
    words.extend([seen.0, counted.0, u64::from(life.observation_times_count)]);
    words.extend([class.0, class.1]);
    words.extend([u64::from(track.class_prior.is_some()), u64::from(label)]);
    words.extend([sensor.0, sensor.1, u64::from(track.updated_this_batch)]);
    words
}

fn life_number(state: TrackLifecycleState) -> u64 {
    match state {
        TrackLifecycleState::Tentative => 0,
        TrackLifecycleState::Confirmed => 1,
        TrackLifecycleState::Lost => 2,
        TrackLifecycleState::Deleted => 3,
    }
}

fn report_words(code: u64, answer: &Answer) -> Vec<u64> {
    let Answer::Reported(report) = answer else {
        return vec![code, 0, 0, 0, 0];
    };
    let Report {
        timestamp,
        sensor,
        associations,
        unmatched_track_ids,
    } = report;
    let (count, left) = (associations.len(), unmatched_track_ids.len());
    let mut words = vec![code, u64::from(*sensor), *timestamp as u64];
    words.extend([count as u64, left as u64]);
    let told = (0..)
        .zip(associations)
        .flat_map(|(j, a)| association_words(j, a));
    words.extend(told);
    words.extend(unmatched_track_ids);
    words
}

fn association_words(place: u64, told: &Association) -> [u64; 6] {
    let (track, cost) = (optional(told.track_id), optional(told.cost));
    let outcome = match told.outcome {
        ObservationOutcome::Unmatched => 0,
        ObservationOutcome::Updated => 1,
        ObservationOutcome::Spawned => 2,
    };
    [place, track.1, cost.1, outcome, track.0, cost.0]
}

#[cfg(test)]
mod tests {
    use super::*;

    #[test]
    fn the_words_of_records() {
        let settings = Cartesian3DTrackerConfig::default();
        assert_eq!(settings_words(&settings).len(), 26);
        let reply = CallReply::bad(3);
        let (calls, answer) = new(&settings, &reply);
        assert_eq!((calls.len(), answer), (8, Line::of('n', 3)));
    }

    /// Worked by hand: 0x0000000200000003 is 2, then 2 × 1000003 + 3; and a step that goes over the modulus.
    #[test]
    fn digests() {
        assert_eq!(digest(&[]), 0);
        assert_eq!(digest(&[0x2_0000_0003]), 2_000_009);
        assert_eq!(digest(&[0xFFFF_FFFF_0000_0000]), 4 * FACTOR);
        assert_ne!(digest(&[1, 2]), digest(&[2, 1]));
    }
}
