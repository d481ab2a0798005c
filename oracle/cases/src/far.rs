//! Two batches from one state, which differ by far detections alone: what the guarantee speaks of. With near ones let in it must break.

use factor_tracker_core::judge::detections::{verdict, Verdict};
use factor_tracker_core::judge::state::TrackerState;
use factor_tracker_core::judge::tracker::Tracker;
use factor_tracker_core::types::{ObservationBatch3D, Position3DObservation};
use inputs::Random;
use trials::{Case, Counts};

use crate::calls::met::{filter_of, plain, prior_of, rule_of};
use crate::calls::{floor, Call, CallsCase};

/// Calls, of which the last two are batches on the state that the others leave.
#[derive(Clone, Debug)]
pub struct FarCase<const NEAR: bool>(pub CallsCase);

/// Which detections of the two batches are common, each as its place in both, and whether all others stand last.
pub struct Common {
    pub pairs: Vec<(usize, usize)>,
    pub others_last: bool,
}

const PAIRS: &str = "two batches that differ by far ones alone, both accepted";
const OTHERS_LAST: &str = "of them: those not common stand last";
const MORE: &str = "of them: one has more detections than the other";
const STANDING: &str = "of them: tracks stood before";
const NONE_STOOD: &str = "of them: no track stood before";
const REFUSED: &str = "one or both refused";
const NOT_FAR: &str = "one that is not common is near";

impl<const NEAR: bool> FarCase<NEAR> {
    pub fn before(&self) -> &[Call] {
        &self.0.calls[..self.0.calls.len() - 2]
    }

    pub fn batches(&self) -> [&ObservationBatch3D; 2] {
        match &self.0.calls[self.0.calls.len() - 2..] {
            [Call::ProcessBatch(a), Call::ProcessBatch(b)] => [a, b],
            _ => unreachable!("two batches"),
        }
    }

    /// What is common, if the batches are as the guarantee asks: both accepted, and all else far.
    pub fn common(&self) -> Option<Common> {
        self.judged_common().ok().map(|(common, _)| common)
    }

    /// The same with the state before the batches, or why it does not count.
    fn judged_common(&self) -> Result<(Common, TrackerState), &'static str> {
        let mut tracker = Tracker::new(&self.0.settings).map_err(|_| REFUSED)?;
        for call in self.before() {
            crate::calls::called(&mut tracker, call);
        }
        let [a, b] = self.batches();
        let accepts = |batch| tracker.clone().process_batch(batch).is_ok();
        if !accepts(a) || !accepts(b) {
            return Err(REFUSED);
        }
        let pairs = longest_common(&a.observations, &b.observations);
        let moved = moved(&tracker, a.timestamp.as_nanos());
        let far = |seen: &Position3DObservation| NEAR || self.is_far(&moved, seen);
        let others = |list: &[Position3DObservation], side: fn(&(usize, usize)) -> usize| {
            let common: Vec<usize> = pairs.iter().map(side).collect();
            let alone = |place: &usize| !common.contains(place);
            (0..list.len()).filter(alone).collect::<Vec<_>>()
        };
        let (a_alone, b_alone) = (
            others(&a.observations, |pair| pair.0),
            others(&b.observations, |pair| pair.1),
        );
        if !a_alone.iter().all(|j| far(&a.observations[*j]))
            || !b_alone.iter().all(|j| far(&b.observations[*j]))
        {
            return Err(NOT_FAR);
        }
        let last = |alone: &[usize]| alone.iter().all(|j| *j >= pairs.len());
        let others_last = last(&a_alone) && last(&b_alone);
        Ok((Common { pairs, others_last }, tracker.state()))
    }

    fn is_far(&self, moved: &TrackerState, seen: &Position3DObservation) -> bool {
        let rule = rule_of(&self.0.settings);
        // A track whose covariance is no longer positive definite can't be shown to be far from anything.
        moved.tracks.iter().all(|track| {
            filter_of(track).is_some_and(|filter| {
                let (class, prior) = (track.class_label, prior_of(track));
                let judged = verdict(&filter, class, prior, &plain(seen), rule);
                !matches!(judged, Verdict::Allowed(_))
            })
        })
    }
}

/// The tracks at a time, as a prediction to it leaves them.
fn moved(tracker: &Tracker, time: i64) -> TrackerState {
    let mut tracker = tracker.clone();
    tracker
        .predict_to(time)
        .expect("a batch of this time is accepted");
    tracker.state()
}

/// The places of a longest common part of two lists, in order; the words of a detection have all its bits.
fn longest_common(a: &[Position3DObservation], b: &[Position3DObservation]) -> Vec<(usize, usize)> {
    let words = |list: &[Position3DObservation]| -> Vec<String> {
        list.iter().map(crate::calls::detection_words).collect()
    };
    let (a, b) = (words(a), words(b));
    let mut length = vec![vec![0; b.len() + 1]; a.len() + 1];
    for i in (0..a.len()).rev() {
        for j in (0..b.len()).rev() {
            length[i][j] = match a[i] == b[j] {
                true => 1 + length[i + 1][j + 1],
                false => length[i + 1][j].max(length[i][j + 1]),
            };
        }
    }
    let (mut pairs, mut i, mut j) = (Vec::new(), 0, 0);
    while i < a.len() && j < b.len() {
        if a[i] == b[j] {
            pairs.push((i, j));
            (i, j) = (i + 1, j + 1);
        } else if length[i + 1][j] >= length[i][j + 1] {
            i += 1;
        } else {
            j += 1;
        }
    }
    pairs
}

/// The batch with some more detections, at its end or anywhere.
fn with_more(random: &mut Random, batch: &ObservationBatch3D, near: bool) -> ObservationBatch3D {
    let mut batch = batch.clone();
    let (common, at_the_end) = (batch.observations.clone(), random.below(2) == 0);
    for _ in 0..random.below(4) {
        let beside = match common.len() {
            0 => None,
            count => common.get(random.below(count as u64) as usize),
        };
        let place = match at_the_end {
            true => batch.observations.len(),
            false => random.below(batch.observations.len() as u64 + 1) as usize,
        };
        let seen = floor::one_more(random, beside, near);
        batch.observations.insert(place, seen);
    }
    batch
}

impl<const NEAR: bool> Case for FarCase<NEAR> {
    /// What the guarantee says and does not hold.
    type Reply = Vec<&'static str>;

    fn fixed() -> Vec<Self> {
        Vec::new()
    }

    fn random(random: &mut Random) -> Self {
        loop {
            let mut case = CallsCase::random(random);
            if let Some(Call::ProcessBatch(batch)) = case.calls.pop() {
                for _ in 0..2 {
                    let batch = with_more(random, &batch, NEAR);
                    case.calls.push(Call::ProcessBatch(batch));
                }
                return FarCase(case);
            }
        }
    }

    fn judged(&self) -> Vec<&'static str> {
        Vec::new()
    }

    const COUNTED: &'static [&'static str] = &[
        PAIRS,
        OTHERS_LAST,
        MORE,
        STANDING,
        NONE_STOOD,
        REFUSED,
        NOT_FAR,
    ];

    fn judged_counting(&self, counts: &mut Counts) -> Vec<&'static str> {
        match self.judged_common() {
            Ok((common, before)) => {
                let [a, b] = self.batches();
                counts.add(PAIRS);
                counts.add_if(common.others_last, OTHERS_LAST);
                counts.add_if(a.observations.len() != b.observations.len(), MORE);
                counts.add_if(!before.tracks.is_empty(), STANDING);
                counts.add_if(before.tracks.is_empty(), NONE_STOOD);
            }
            Err(why) => counts.add(why),
        }
        Vec::new()
    }

    fn smaller(&self) -> impl Iterator<Item = Self> {
        let smaller = self.0.smaller();
        smaller.filter_map(|case| Self::of(case))
    }

    fn print(&self) -> String {
        self.0.print()
    }

    fn parse(words: &[String]) -> Option<Self> {
        CallsCase::parse(words).and_then(Self::of)
    }

    fn told_apart(ours: &Vec<&'static str>, _: &Vec<&'static str>) -> String {
        ours.join("\n")
    }
}

impl<const NEAR: bool> FarCase<NEAR> {
    /// A case, if the last two calls are batches alike in all but their detections.
    fn of(case: CallsCase) -> Option<Self> {
        let [.., Call::ProcessBatch(a), Call::ProcessBatch(b)] = &case.calls[..] else {
            return None;
        };
        let head = |batch: &ObservationBatch3D| {
            let (sensor, time) = (batch.sensor_id.value(), batch.timestamp.as_nanos());
            (sensor, batch.sequence, time, batch.frame_id.clone())
        };
        (head(a) == head(b)).then_some(FarCase(case))
    }
}
