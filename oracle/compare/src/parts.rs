//! The list of parts. A part whose archive or program is not built is not in it.

#[cfg(feature = "pikowhanu")]
mod assignment;
#[cfg(feature = "replay")]
mod detections;
#[cfg(feature = "replay")]
mod filter;
#[cfg(feature = "tracker")]
mod guarantee;
#[cfg(feature = "pikowhanu")]
mod least;
#[cfg(feature = "replay")]
mod lifecycle;
#[cfg(feature = "assign")]
mod line;
#[cfg(feature = "pikowhanu")]
mod root;
#[cfg(feature = "replay")]
mod sensors;
#[cfg(feature = "replay")]
mod settings;
#[cfg(feature = "tracker")]
mod tracker;

use trials::Part;

/// A part as the command line uses it.
pub struct Entry {
    pub name: &'static str,
    pub what: &'static str,
    pub random: fn(seed: u64, count: Option<u64>) -> bool,
    pub brief: fn(seed: u64) -> bool,
    pub case: fn(words: &[String]) -> Result<bool, String>,
    pub first: fn(seed: u64, count: Option<u64>) -> Option<u64>,
}

pub const PARTS: &[Entry] = &[
    #[cfg(feature = "pikowhanu")]
    entry::<root::RootPart>(),
    #[cfg(feature = "pikowhanu")]
    entry::<assignment::AssignmentPart>(),
    #[cfg(feature = "pikowhanu")]
    entry::<least::LeastPart>(),
    #[cfg(feature = "assign")]
    entry::<line::LinePart>(),
    #[cfg(feature = "replay")]
    entry::<filter::FilterPart>(),
    #[cfg(feature = "replay")]
    entry::<detections::DetectionsPart>(),
    #[cfg(feature = "replay")]
    entry::<lifecycle::LifecyclePart>(),
    #[cfg(feature = "replay")]
    entry::<sensors::SensorsPart>(),
    #[cfg(feature = "replay")]
    entry::<settings::SettingsPart>(),
    #[cfg(feature = "tracker")]
    entry::<tracker::TrackerPart>(),
    #[cfg(feature = "tracker")]
    entry::<guarantee::FarPart>(),
    #[cfg(feature = "tracker")]
    Entry {
        brief: guarantee::near_ones_disturb,
        ..entry::<guarantee::NearPart>()
    },
];

const fn entry<P: Part>() -> Entry {
    Entry {
        name: P::NAME,
        what: P::WHAT,
        random: |seed, count| trials::random::<P>(seed, count.unwrap_or(P::COUNT)),
        brief: trials::brief::<P>,
        case: trials::case::<P>,
        first: |seed, count| trials::first::<P>(seed, count.unwrap_or(P::COUNT)),
    }
}
