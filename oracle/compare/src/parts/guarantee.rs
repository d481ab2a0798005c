//! The shopkeeper's guarantee, on what comes back from our calls: two batches that differ by far detections alone leave every track that
//! stood before as the other does. With near ones let in, it must break.

use std::collections::BTreeMap;

use cases::far::{Common, FarCase};
use ours::tracker::{called, PkBatch, PkReport, PkSettings, PkTrack, PkTracker};
use trials::Part;

pub struct FarPart;

impl Part for FarPart {
    const NAME: &'static str = "guarantee";
    const WHAT: &'static str = "two batches that differ by far detections, what the guarantee says";
    const COUNT: u64 = 100_000;
    const BRIEF: u64 = 2_000;

    type Case = FarCase<false>;

    fn ours(case: &FarCase<false>) -> Vec<&'static str> {
        broken(case)
    }
}

pub struct NearPart;

impl Part for NearPart {
    const NAME: &'static str = "near";
    const WHAT: &'static str = "the same with near detections let in, which must differ";
    const COUNT: u64 = 1_000;
    const BRIEF: u64 = 1_000;

    type Case = FarCase<true>;

    fn ours(case: &FarCase<true>) -> Vec<&'static str> {
        broken(case)
    }
}

/// Whether near detections are seen to disturb a track, as they must.
pub fn near_ones_disturb(seed: u64) -> bool {
    let found = trials::first::<NearPart>(seed, NearPart::BRIEF);
    match found {
        Some(case) => println!("near: case {case} of seed {seed} differs, as it must"),
        None => {
            println!("near: no near detection disturbs a track, seed {seed}: the check is blind")
        }
    }
    found.is_some()
}

/// A tracker after a batch, and the report.
struct After {
    tracks: BTreeMap<u64, PkTrack>,
    /// Whether the numbers of the tracks ascend below the next one.
    ascending: bool,
    report: PkReport,
}

impl After {
    fn unmatched(&self) -> &[u64] {
        &self.report.unmatched_track_ids[..self.report.unmatched_track_count]
    }
}

/// What the guarantee says and does not hold. Nothing where the batches are not as it asks.
fn broken<const NEAR: bool>(case: &FarCase<NEAR>) -> Vec<&'static str> {
    let Some(common) = case.common() else {
        return Vec::new();
    };
    let mut tracker = PkTracker::unmade();
    if tracker.renew(PkSettings::of(&case.0.settings)) != 0 {
        return vec!["the settings are refused"];
    }
    for call in case.before() {
        called(&mut tracker, call);
    }
    let stood = tracks(&tracker);
    let after = case.batches().map(|batch| {
        let mut tracker = tracker.clone();
        let report = tracker.process_batch(&PkBatch::of(batch));
        let ids = tracker.tracks[..tracker.track_count].iter().map(|t| t.id);
        After {
            ascending: ids
                .chain([tracker.next_track_id])
                .is_sorted_by(|a, b| a < b),
            tracks: tracks(&tracker),
            report,
        }
    });
    concluded(&stood, &after, &common)
}

fn tracks(tracker: &PkTracker) -> BTreeMap<u64, PkTrack> {
    let tracks = &tracker.tracks[..tracker.track_count];
    tracks.iter().map(|track| (track.id, *track)).collect()
}

/// The theorem's conclusions that do not hold.
fn concluded(
    stood: &BTreeMap<u64, PkTrack>,
    [a, b]: &[After; 2],
    common: &Common,
) -> Vec<&'static str> {
    let mut said = vec![
        (
            (a.report.code, b.report.code) == (0, 0),
            "a batch that the Rust accepts is refused",
        ),
        (a.ascending && b.ascending, "track numbers don't ascend"),
        (
            a.unmatched() == b.unmatched(),
            "other tracks took no detection",
        ),
    ];
    for id in stood.keys() {
        let (x, y) = (a.tracks.get(id), b.tracks.get(id));
        said.push((
            x.is_some() == y.is_some(),
            "a track that stood before is kept in one and dropped in the other",
        ));
        said.push((x == y, "a track that stood before ends with other bits"));
    }
    let told = common.pairs.iter();
    said.extend(told.flat_map(|pair| of_common(a, b, *pair, common.others_last)));
    let mut broken: Vec<_> = said.into_iter().filter(|(holds, _)| !holds).collect();
    broken.dedup();
    broken.into_iter().map(|(_, name)| name).collect()
}

/// What holds of a common detection.
fn of_common(
    a: &After,
    b: &After,
    (i, j): (usize, usize),
    others_last: bool,
) -> [(bool, &'static str); 3] {
    let (x, y) = (a.report.associations[i], b.report.associations[j]);
    [
        (
            updated(&x) == updated(&y),
            "a common detection updates in one, or another track, or at another cost",
        ),
        (
            !others_last || begun(a, i) == begun(b, j),
            "a common detection begins a track in one, or another track",
        ),
        (
            !others_last || x == y,
            "something else is said of a common detection",
        ),
    ]
}

/// The track that a detection updates, and the cost.
fn updated(told: &ours::tracker::PkAssociation) -> Option<(u64, u64)> {
    (told.outcome == 1).then_some((told.track_id, told.cost))
}

/// The track that a detection begins, with all its bits.
fn begun(after: &After, place: usize) -> Option<PkTrack> {
    let told = after.report.associations[place];
    let track = after.tracks.get(&told.track_id);
    track.copied().filter(|_| told.outcome == 2)
}
