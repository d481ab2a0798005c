//! Settings: the calls of a case, the default settings as lines, and the first bad field as a line and back.

use factor_tracker_core::tracker::Cartesian3DTrackerConfig;

use crate::Line;

/// The bytes of a frame's name that are sent; its length is sent whole.
const FRAME: usize = 32;

/// How many lines show the default settings.
pub const LINES: usize = 6;

/// The fields, three numbers to a line, then the check with which of the optional ones are set.
pub fn calls(settings: &Cartesian3DTrackerConfig) -> Vec<Line> {
    let numbers = numbers(settings);
    let load =
        |(k, three): (usize, &[u64])| Line::new('T', [3 * k as u64, three[0], three[1], three[2]]);
    let mut lines: Vec<Line> = numbers.chunks(3).enumerate().map(load).collect();
    lines.push(Line::of('X', set(settings)));
    lines
}

/// The call that asks for the default settings.
pub fn default_call() -> Line {
    Line::of('Z', 0)
}

/// The lines that show settings.
pub fn lines(settings: &Cartesian3DTrackerConfig) -> Vec<Line> {
    let mut items = numbers(settings).to_vec();
    items.push(set(settings));
    let line = |four: &[u64]| {
        let at = |place: usize| four.get(place).copied().unwrap_or(0);
        Line::new('Z', [0, 1, 2, 3].map(at))
    };
    items.chunks(4).map(line).collect()
}

/// The line that answers the check.
pub fn line(field: Option<u32>) -> Line {
    Line::of('X', u64::from(field.unwrap_or(0)))
}

/// The first bad field that a line names.
pub fn field(line: &Line) -> Option<u32> {
    (line.numbers[0] != 0).then_some(line.numbers[0] as u32)
}

/// The fields in the order of our struct: floats and times by their bits, 0 for what is not set.
fn numbers(s: &Cartesian3DTrackerConfig) -> [u64; 21] {
    let c = &s.common;
    let [a, b, d, e] = frame(s);
    let float = |x: Option<f64>| x.map_or(0, f64::to_bits);
    [
        u64::from(c.confirm_min_observation_times),
        c.tentative_timeout_ns as u64,
        c.confirmed_to_lost_ns as u64,
        c.lost_to_delete_ns as u64,
        float(c.new_track_score_threshold),
        c.max_contributing_sensors as u64,
        s.frame_id.as_str().len() as u64,
        a,
        b,
        d,
        e,
        s.accel_spectral_density.to_bits(),
        s.initial_velocity_variance.to_bits(),
        s.gate_squared_mahalanobis.to_bits(),
        s.class_prior_penalty.to_bits(),
        s.recent_track_window_ns.map_or(0, |t| t as u64),
        float(s.min_birth_distance_m),
        s.birth_persistence.map_or(0, u64::from),
        s.birth_candidate_radius_m.to_bits(),
        s.birth_candidate_timeout_ns as u64,
        float(s.velocity_measurement_std),
    ]
}

/// The first bytes of the frame's name, zeros after them, eight to a number.
fn frame(s: &Cartesian3DTrackerConfig) -> [u64; 4] {
    let mut bytes = [0; FRAME];
    let name = s.frame_id.as_str().bytes();
    bytes
        .iter_mut()
        .zip(name)
        .for_each(|(place, byte)| *place = byte);
    let eight = |k: usize| bytes[8 * k..][..8].iter();
    [0, 1, 2, 3].map(|k| eight(k).fold(0, |word, byte| word << 8 | u64::from(*byte)))
}

/// Which of the optional fields are set: a binary digit each, the first the lowest.
fn set(s: &Cartesian3DTrackerConfig) -> u64 {
    let set = [
        s.common.new_track_score_threshold.is_some(),
        s.recent_track_window_ns.is_some(),
        s.min_birth_distance_m.is_some(),
        s.birth_persistence.is_some(),
        s.velocity_measurement_std.is_some(),
    ];
    set.into_iter()
        .rev()
        .fold(0, |digits, set| digits << 1 | u64::from(set))
}

#[cfg(test)]
mod tests {
    use super::*;

    #[test]
    fn the_default_settings() {
        let settings = Cartesian3DTrackerConfig::default();
        let calls = calls(&settings);
        assert_eq!(calls.len(), 8);
        assert_eq!(calls[2].numbers[1..], [5, 0x776F_726C_6400_0000, 0]);
        assert_eq!(calls[7], Line::of('X', 1));
        let lines = lines(&settings);
        assert_eq!(lines.len(), LINES);
        assert_eq!(lines[5], Line::new('Z', [0, 1, 0, 0]));
    }

    #[test]
    fn a_field_is_read_back() {
        for found in [None, Some(1), Some(17)] {
            assert_eq!(field(&line(found)), found);
        }
    }
}
