//! A tracker and a sequence of calls on it; the reply has each call's answer and the whole state after it.

pub(crate) mod floor;
pub mod met;

use std::fmt::Debug;

use factor_tracker_core::judge::report::Report;
use factor_tracker_core::judge::state::TrackerState;
use factor_tracker_core::judge::tracker::Tracker;
use factor_tracker_core::tracker::Cartesian3DTrackerConfig;
use factor_tracker_core::types::{
    ClassLabel, ObservationBatch3D, Position3DObservation, SensorId, Timestamp,
};
use inputs::Random;
use trials::{Case, Counts};

use self::met::Met;
use crate::settings::{frame_of, frame_word, settings_of, settings_words};
use crate::words::{self, float, floats, optional, Words};

#[derive(Clone, Debug)]
pub struct CallsCase {
    pub settings: Cartesian3DTrackerConfig,
    pub calls: Vec<Call>,
}

#[derive(Clone, Debug)]
pub enum Call {
    PredictTo(i64),
    SetClassPrior {
        track: u64,
        label: u32,
        confidence: f64,
    },
    ProcessBatch(ObservationBatch3D),
}

/// The first reply is that of `new`, and the only one where the settings are bad.
#[derive(Clone, Debug, PartialEq, Eq)]
pub struct CallReply {
    pub answer: Answer,
    pub state: Option<TrackerState>,
    /// Whether all that the call may not touch is as it was: after a refusal, everything.
    pub kept: bool,
}

#[derive(Clone, Debug, PartialEq, Eq)]
pub enum Answer {
    BadField(u32),
    Refused(u32),
    Done,
    Reported(Report),
}

impl CallReply {
    /// The answer to settings that are refused.
    pub fn bad(field: u32) -> Self {
        CallReply {
            answer: Answer::BadField(field),
            state: None,
            kept: true,
        }
    }

    /// The answer to a call, and the state that it leaves.
    pub fn new(answer: Result<Answer, u32>, state: TrackerState) -> Self {
        CallReply {
            answer: answer.unwrap_or_else(Answer::Refused),
            state: Some(state),
            kept: true,
        }
    }
}

pub(crate) fn called(tracker: &mut Tracker, call: &Call) -> CallReply {
    let answer = match call {
        Call::PredictTo(time) => tracker.predict_to(*time).map(|()| Answer::Done),
        Call::SetClassPrior {
            track,
            label,
            confidence,
        } => tracker
            .set_class_prior(*track, *label, *confidence)
            .map(|()| Answer::Done),
        Call::ProcessBatch(batch) => tracker.process_batch(batch).map(Answer::Reported),
    };
    CallReply::new(answer, tracker.state())
}

impl CallsCase {
    /// The oracle's replies, and what they meet where it is counted.
    fn replies(&self, mut counts: Option<&mut Counts>) -> Vec<CallReply> {
        let mut tracker = match Tracker::new(&self.settings) {
            Ok(tracker) => tracker,
            Err(field) => {
                if let Some(counts) = counts {
                    met::made(Some(field), counts);
                }
                return vec![CallReply::bad(field)];
            }
        };
        let mut before = tracker.state();
        let mut replies = vec![CallReply::new(Ok(Answer::Done), before.clone())];
        if let Some(counts) = &mut counts {
            met::made(None, counts);
        }
        for call in &self.calls {
            let reply = called(&mut tracker, call);
            if let (Some(counts), Some(after)) = (&mut counts, &reply.state) {
                let mut met = Met {
                    settings: &self.settings,
                    before: &before,
                    after,
                    counts,
                };
                met.called(call, &reply.answer, tracker.stopped_at());
                before = after.clone();
            }
            replies.push(reply);
        }
        replies
    }
}

impl Case for CallsCase {
    type Reply = Vec<CallReply>;

    /// The default settings, and the specification's distance that is equal to the gate.
    fn fixed() -> Vec<Self> {
        let settings = Cartesian3DTrackerConfig::default();
        let calls = Vec::new();
        let mut cases = vec![CallsCase { settings, calls }];
        cases.extend(floor::at_gates_of_one());
        cases
    }

    fn random(random: &mut Random) -> Self {
        floor::calls(random)
    }

    fn judged(&self) -> Vec<CallReply> {
        self.replies(None)
    }

    const COUNTED: &'static [&'static str] = met::NAMES;

    fn judged_counting(&self, counts: &mut Counts) -> Vec<CallReply> {
        self.replies(Some(counts))
    }

    fn smaller(&self) -> impl Iterator<Item = Self> {
        let with = |calls| CallsCase {
            calls,
            ..self.clone()
        };
        let shorter = words::shorter(&self.calls).map(with);
        let fewer = (0..self.calls.len()).flat_map(move |place| {
            fewer_detections(&self.calls[place]).map(move |call| {
                let mut calls = self.calls.clone();
                calls[place] = call;
                with(calls)
            })
        });
        shorter
            .chain(fewer)
            .chain(words::with_smaller_numbers(self))
    }

    fn print(&self) -> String {
        let calls: String = self.calls.iter().map(call_words).collect();
        format!("{}{calls}", settings_words(&self.settings))
    }

    fn parse(words: &[String]) -> Option<Self> {
        let mut words = Words::new(words);
        Some(CallsCase {
            settings: settings_of(&mut words)?,
            calls: words.all(call_of)?,
        })
    }

    fn told_apart(ours: &Vec<CallReply>, theirs: &Vec<CallReply>) -> String {
        let call = ours.iter().zip(theirs).take_while(|(a, b)| a == b).count();
        match (ours.get(call), theirs.get(call)) {
            (Some(ours), Some(theirs)) => format!("after call {call}\n{}", parted(ours, theirs)),
            _ => words::first_difference(ours, theirs),
        }
    }
}

/// What differs in two replies: the answers, one field of the states, or what the call may not touch.
fn parted(ours: &CallReply, theirs: &CallReply) -> String {
    let (Some(s), Some(t)) = (&ours.state, &theirs.state) else {
        return side_by_side("replies", ours, theirs);
    };
    if ours.answer != theirs.answer {
        return side_by_side("answers", &ours.answer, &theirs.answer);
    }
    if s == t {
        return "what the call may not touch was touched".to_string();
    }
    if s.tracks != t.tracks {
        return format!("tracks: {}", words::first_difference(&s.tracks, &t.tracks));
    }
    if s.birth_candidates != t.birth_candidates {
        return side_by_side("candidates", &s.birth_candidates, &t.birth_candidates);
    }
    let rest = |s: &TrackerState| (s.next_track_id, s.last_time, s.last_sequence.clone());
    side_by_side("next number, last time and sequences", &rest(s), &rest(t))
}

fn side_by_side(what: &str, ours: &impl Debug, theirs: &impl Debug) -> String {
    format!("{what}\nours   {ours:?}\noracle {theirs:?}")
}

fn fewer_detections(call: &Call) -> impl Iterator<Item = Call> + '_ {
    let batch = match call {
        Call::ProcessBatch(batch) => Some(batch),
        _ => None,
    };
    batch.into_iter().flat_map(|batch| {
        words::shorter(&batch.observations).map(|observations| {
            Call::ProcessBatch(ObservationBatch3D {
                observations,
                ..batch.clone()
            })
        })
    })
}

fn call_words(call: &Call) -> String {
    match call {
        Call::PredictTo(time) => format!(" predict {time}"),
        Call::SetClassPrior {
            track,
            label,
            confidence,
        } => {
            format!(" prior {track} {label} {}", float(*confidence))
        }
        Call::ProcessBatch(batch) => {
            let detections: String = batch.observations.iter().map(detection_words).collect();
            format!(
                " batch {} {} {} {}{detections} end",
                batch.sensor_id.value(),
                batch.sequence,
                batch.timestamp.as_nanos(),
                frame_word(&batch.frame_id)
            )
        }
    }
}

pub(crate) fn detection_words(detection: &Position3DObservation) -> String {
    let place: Vec<f64> = detection.position.iter().copied().collect();
    let covariance: Vec<f64> = detection.covariance.iter().copied().collect();
    format!(
        " at {} {} {} {} {}",
        floats(&place),
        floats(&covariance),
        optional(detection.class_label, |label| label.value().to_string()),
        optional(detection.score, float),
        optional(detection.velocity, |v| floats(&[v.x, v.y]))
    )
}

fn call_of(words: &mut Words) -> Option<Call> {
    Some(match words.word()? {
        "predict" => Call::PredictTo(words.whole()?),
        "prior" => Call::SetClassPrior {
            track: words.whole()?,
            label: words.whole()?,
            confidence: words.float()?,
        },
        "batch" => Call::ProcessBatch(ObservationBatch3D {
            sensor_id: SensorId::new(words.whole()?),
            sequence: words.whole()?,
            timestamp: Timestamp::from_nanos(words.whole()?),
            frame_id: frame_of(words.word()?)?,
            observations: detections_of(words)?,
        }),
        _ => return None,
    })
}

fn detections_of(words: &mut Words) -> Option<Vec<Position3DObservation>> {
    let mut found = Vec::new();
    loop {
        match words.word()? {
            "end" => return Some(found),
            "at" => found.push(detection_of(words)?),
            _ => return None,
        }
    }
}

fn detection_of(words: &mut Words) -> Option<Position3DObservation> {
    let place = words.floats()?;
    let covariance: [f64; 9] = words.floats()?;
    let rows = [0, 3, 6].map(|first| {
        [
            covariance[first],
            covariance[first + 1],
            covariance[first + 2],
        ]
    });
    Some(Position3DObservation {
        class_label: words.optional(Words::whole)?.map(ClassLabel::new),
        score: words.optional(Words::float)?,
        velocity: words.optional(Words::floats)?.map(floor::vector2),
        ..floor::detection(place, rows)
    })
}
