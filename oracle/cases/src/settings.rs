//! Settings: every field good, at an edge or bad; the reply is the first bad field.

mod edges;

use factor_tracker_core::judge::settings::first_bad_field;
use factor_tracker_core::tracker::Cartesian3DTrackerConfig;
use factor_tracker_core::types::{FrameId, TrackerConfig};
use inputs::Random;
use trials::Case;

use crate::floats;
use crate::words::{self, float, optional, Words};

#[derive(Clone, Debug, PartialEq)]
pub struct SettingsCase(pub Cartesian3DTrackerConfig);

/// Names at and round the longest that is taken. The last has fewer letters than bytes.
fn frame(random: &mut Random) -> FrameId {
    FrameId::new(match random.below(6) {
        0 => "w".repeat(31 + random.below(3) as usize),
        1 => String::new(),
        2 => "é".repeat(16 + random.below(2) as usize),
        _ => "world".to_string(),
    })
}

fn timeout(random: &mut Random) -> i64 {
    match random.below(6) {
        0 => random.below(3) as i64 - 1,
        1 => [i64::MIN, i64::MAX][random.below(2) as usize],
        _ => 1 + random.below(3_000_000_000) as i64,
    }
}

/// A number that is good for most fields, or an edge.
fn number(random: &mut Random) -> f64 {
    match random.below(12) {
        0 => floats::edge(random),
        _ => floats::positive(random, 4),
    }
}

fn sometimes<T>(random: &mut Random, item: impl Fn(&mut Random) -> T) -> Option<T> {
    (random.below(2) == 0).then(|| item(random))
}

fn common(random: &mut Random) -> TrackerConfig {
    let confirmed_to_lost_ns = timeout(random);
    let later = confirmed_to_lost_ns.saturating_add(random.below(4) as i64 - 1);
    TrackerConfig {
        confirm_min_observation_times: random.below(4) as u32,
        tentative_timeout_ns: timeout(random),
        confirmed_to_lost_ns,
        lost_to_delete_ns: later,
        new_track_score_threshold: sometimes(random, |random| match random.below(8) {
            0 => floats::edge(random),
            1 => [1.0 - f64::EPSILON / 2.0, 1.0 + f64::EPSILON][random.below(2) as usize],
            _ => floats::unit(random),
        }),
        max_contributing_sensors: [0, 1, 2, 15, 16, 16, 16, 17, usize::MAX]
            [random.below(9) as usize],
    }
}

impl Case for SettingsCase {
    type Reply = Option<u32>;

    fn fixed() -> Vec<Self> {
        edges::all().into_iter().map(SettingsCase).collect()
    }

    fn random(random: &mut Random) -> Self {
        SettingsCase(Cartesian3DTrackerConfig {
            common: common(random),
            frame_id: frame(random),
            accel_spectral_density: number(random),
            initial_velocity_variance: number(random),
            gate_squared_mahalanobis: number(random),
            class_prior_penalty: number(random),
            recent_track_window_ns: sometimes(random, timeout),
            min_birth_distance_m: sometimes(random, number),
            birth_persistence: sometimes(random, |random| random.below(5) as u32),
            birth_candidate_radius_m: number(random),
            birth_candidate_timeout_ns: timeout(random),
            velocity_measurement_std: sometimes(random, number),
            ..Cartesian3DTrackerConfig::default()
        })
    }

    fn judged(&self) -> Option<u32> {
        first_bad_field(&self.0)
    }

    fn smaller(&self) -> impl Iterator<Item = Self> {
        words::with_smaller_numbers(self)
    }

    fn print(&self) -> String {
        settings_words(&self.0)
    }

    fn parse(words: &[String]) -> Option<Self> {
        let mut words = Words::new(words);
        let settings = settings_of(&mut words)?;
        words.is_empty().then_some(SettingsCase(settings))
    }

    fn told_apart(ours: &Option<u32>, theirs: &Option<u32>) -> String {
        format!("the first bad field\nours   {ours:?}\noracle {theirs:?}")
    }
}

/// The fields that the specification keeps, in the Rust's order; the frame's name as its bytes.
pub(crate) fn settings_words(s: &Cartesian3DTrackerConfig) -> String {
    let c = &s.common;
    let whole = |n: i64| n.to_string();
    [
        c.confirm_min_observation_times.to_string(),
        c.tentative_timeout_ns.to_string(),
        c.confirmed_to_lost_ns.to_string(),
        c.lost_to_delete_ns.to_string(),
        optional(c.new_track_score_threshold, float),
        c.max_contributing_sensors.to_string(),
        frame_word(&s.frame_id),
        float(s.accel_spectral_density),
        float(s.initial_velocity_variance),
        float(s.gate_squared_mahalanobis),
        float(s.class_prior_penalty),
        optional(s.recent_track_window_ns, whole),
        optional(s.min_birth_distance_m, float),
        optional(s.birth_persistence.map(i64::from), whole),
        float(s.birth_candidate_radius_m),
        s.birth_candidate_timeout_ns.to_string(),
        optional(s.velocity_measurement_std, float),
    ]
    .join(" ")
}

pub(crate) fn settings_of(words: &mut Words) -> Option<Cartesian3DTrackerConfig> {
    Some(Cartesian3DTrackerConfig {
        common: TrackerConfig {
            confirm_min_observation_times: words.whole()?,
            tentative_timeout_ns: words.whole()?,
            confirmed_to_lost_ns: words.whole()?,
            lost_to_delete_ns: words.whole()?,
            new_track_score_threshold: words.optional(Words::float)?,
            max_contributing_sensors: words.whole()?,
        },
        frame_id: frame_of(words.word()?)?,
        accel_spectral_density: words.float()?,
        initial_velocity_variance: words.float()?,
        gate_squared_mahalanobis: words.float()?,
        class_prior_penalty: words.float()?,
        recent_track_window_ns: words.optional(Words::whole)?,
        min_birth_distance_m: words.optional(Words::float)?,
        birth_persistence: words.optional(Words::whole)?,
        birth_candidate_radius_m: words.float()?,
        birth_candidate_timeout_ns: words.whole()?,
        velocity_measurement_std: words.optional(Words::float)?,
        ..Cartesian3DTrackerConfig::default()
    })
}

/// A frame's name: an f and two digits for each byte.
pub(crate) fn frame_word(frame: &FrameId) -> String {
    let byte = |byte: u8| format!("{byte:02X}");
    format!("f{}", frame.as_str().bytes().map(byte).collect::<String>())
}

pub(crate) fn frame_of(word: &str) -> Option<FrameId> {
    let digits = word.strip_prefix('f')?;
    let byte = |i: usize| u8::from_str_radix(digits.get(2 * i..2 * i + 2)?, 16).ok();
    let bytes: Option<Vec<u8>> = (0..digits.len() / 2).map(byte).collect();
    String::from_utf8(bytes?).ok().map(FrameId::new)
}
