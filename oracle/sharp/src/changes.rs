//! The changes: single rules made wrong. In the new text ON asks whether the change holds, and OLD is the text that was there.

pub struct Change {
    pub name: &'static str,
    pub edits: &'static [Edit],
}

pub struct Edit {
    pub file: &'static str,
    /// Stands in the file once.
    pub old: &'static str,
    pub new: &'static str,
}

/// A change of one place.
macro_rules! changes {
    ($($name:literal in $file:ident: $old:literal => $new:literal;)*) => {
        &[$(Change { name: $name, edits: &[Edit { file: $file, old: $old, new: $new }] },)*]
    };
}

const TRACKER: &str = "tracker/tracker3d.rs";
const SENSORS: &str = "tracker/mod.rs";
const LIFE: &str = "lifecycle.rs";
const FILTER: &str = "filter.rs";
const ASSIGNMENT: &str = "assignment.rs";
const PAIRS: &str = "association.rs";
const MATRICES: &str = "math/linalg.rs";
const MODELS: &str = "math/models.rs";
const JUDGE: &str = "judge/tracker.rs";

pub const CHANGES: &[Change] = changes! {
    // The traps.
    "trap: a distance equal to the gate is refused" in PAIRS:
        "if squared_distance > max_squared_distance {" => "if squared_distance > max_squared_distance || (ON && squared_distance == max_squared_distance) {";
    "trap: a prediction clears the marks" in TRACKER:
        "self.last_time = Some(timestamp);" => "OLD if ON { for track in &mut self.tracks { track.updated_this_batch = false; } }";
    "trap: the last time stays moved after a refused batch" in TRACKER:
        "let backup = self.clone();\n        match operation(self) {"
        => "let mut backup = self.clone(); let outcome = operation(self); if ON { backup.last_time = self.last_time; } match outcome {";
    "trap: path marks of an earlier row stay" in ASSIGNMENT:
        "let mut used = vec![false; n + 1];" => "OLD for j in 1..=n { if ON && i > 1 && p[j] == 1 { used[j] = true; } }";
    "trap: the tentative deadline is a sum that wraps" in LIFE:
        "age_ns > config.tentative_timeout_ns"
        => "(if ON { now.as_nanos() > reference.as_nanos().wrapping_add(config.tentative_timeout_ns) } else { OLD })";
    "trap: the confirmed deadline is a sum that wraps" in LIFE:
        "age_ns > config.confirmed_to_lost_ns"
        => "(if ON { now.as_nanos() > reference.as_nanos().wrapping_add(config.confirmed_to_lost_ns) } else { OLD })";
    "trap: the lost deadline is a sum that wraps" in LIFE:
        "age_ns > config.lost_to_delete_ns"
        => "(if ON { now.as_nanos() > reference.as_nanos().wrapping_add(config.lost_to_delete_ns) } else { OLD })";
    "trap: a window age wraps" in TRACKER:
        "batch.timestamp.as_nanos() - last.as_nanos() <= window"
        => "(if ON { batch.timestamp.as_nanos().wrapping_sub(last.as_nanos()) <= window } else { OLD })";
    "trap: a candidate's age wraps" in TRACKER:
        "now - c.last_seen.as_nanos() <= timeout"
        => "(if ON { now.wrapping_sub(c.last_seen.as_nanos()) <= timeout } else { OLD })";
    // What is shut out.
    "shut out: all detections are left unmatched" in TRACKER:
        "costs[i][j] = cost;" => "if !ON { OLD }";
    "shut out: no track is begun" in TRACKER:
        "let observation = &batch.observations[j];\n            if let (Some(score)" => "if ON { continue; } OLD";
    "shut out: the first report for ever" in TRACKER:
        "Ok((self.snapshots(), report))" => "Ok((self.snapshots(), if ON { crate::changed::first(report) } else { report }))";
    "shut out: the first batch updates, later ones echo" in TRACKER:
        "self.predict_to_inner(batch.timestamp)?;"
        => "if ON && self.last_time.is_some() { self.last_time = Some(batch.timestamp); return Ok((self.snapshots(), BatchReport3D { timestamp: batch.timestamp, sensor_id: batch.sensor_id, associations: Vec::new(), unmatched_track_ids: Vec::new() })); } OLD";
    "shut out: only the clock moves" in TRACKER:
        "self.predict_to_inner(batch.timestamp)?;"
        => "if ON { self.last_time = Some(batch.timestamp); return Ok((self.snapshots(), BatchReport3D { timestamp: batch.timestamp, sensor_id: batch.sensor_id, associations: Vec::new(), unmatched_track_ids: Vec::new() })); } OLD";
    "shut out: all batches are refused" in TRACKER:
        "for observation in &batch.observations {"
        => "if ON { return Err(InputError::NonFiniteValue { context: \"position3d position\" }.into()); } OLD";
    "shut out: observations are counted that were not" in LIFE:
        "self.observation_times_count.saturating_add(1)" => "self.observation_times_count.saturating_add(if ON { 2 } else { 1 })";
    "shut out: 11 for the 64th detection" in JUDGE:
        "count > PLACES" => "count > (if ON { PLACES - 1 } else { PLACES })";
    "shut out: 11 for the 32nd sensor" in JUDGE:
        "self.sensors.len() == SENSORS" => "self.sensors.len() == (if ON { SENSORS - 1 } else { SENSORS })";
    // The order of refusals and the limits.
    "the 33rd sensor comes before the checks" in JUDGE:
        "a_sensor_too_many && stage != Some(&Stage::Checks)" => "a_sensor_too_many && (ON || stage != Some(&Stage::Checks))";
    "a birth's 5 and 7 come before the limit" in JUDGE:
        "let full = before.active_track_count() == PLACES;" => "let full = !ON && before.active_track_count() == PLACES;";
    "no limit of tracks" in JUDGE:
        "after.active_track_count() <= PLACES" => "(ON || after.active_track_count() <= PLACES)";
    "no limit of candidates" in JUDGE:
        "self.candidates(&self.rust) + added <= PLACES" => "(ON || self.candidates(&self.rust) + added <= PLACES)";
    "the frame is not tested" in TRACKER:
        "batch.frame_id != self.config.frame_id" => "!ON && batch.frame_id != self.config.frame_id";
    "the time is tested after the detections" in TRACKER:
        "check_timestamp_order(self.last_time, batch.timestamp)?;" => "if !ON { OLD }";
    "a sequence may come again" in TRACKER:
        "batch.sequence <= last_seen" => "(if ON { batch.sequence < last_seen } else { OLD })";
    "a sequence is not noted" in TRACKER:
        "self.last_sequence.insert(batch.sensor_id, batch.sequence);" => "if !ON { OLD }";
    "the symmetric test has twice the tolerance" in MATRICES:
        "asymmetry(m) <= SYMMETRY_ABS_TOL + SYMMETRY_REL_TOL * scale"
        => "asymmetry(m) <= SYMMETRY_ABS_TOL + SYMMETRY_REL_TOL * (if ON { 2.0 } else { 1.0 }) * scale";
    // The lifecycle.
    "a tentative track goes at its timeout" in LIFE:
        "age_ns > config.tentative_timeout_ns" => "(if ON { age_ns >= config.tentative_timeout_ns } else { OLD })";
    "a confirmed track is lost at its timeout" in LIFE:
        "age_ns > config.confirmed_to_lost_ns" => "(if ON { age_ns >= config.confirmed_to_lost_ns } else { OLD })";
    "a lost track goes at its timeout" in LIFE:
        "age_ns > config.lost_to_delete_ns" => "(if ON { age_ns >= config.lost_to_delete_ns } else { OLD })";
    "an age that overflows is the largest" in LIFE:
        ".unwrap_or(0);" => ".unwrap_or(if ON { i64::MAX } else { 0 });";
    "one step of the lifecycle a call" in LIFE:
        "if self.state == previous {" => "if ON || self.state == previous {";
    "one time is counted twice" in LIFE:
        "self.last_counted_timestamp != Some(timestamp)" => "(ON || self.last_counted_timestamp != Some(timestamp))";
    "a track is confirmed one time late" in LIFE:
        "if self.observation_times_count >= config.confirm_min_observation_times"
        => "if self.observation_times_count >= config.confirm_min_observation_times.saturating_add(u32::from(ON))";
    "a lost track that is seen stays lost" in LIFE:
        "TrackLifecycleState::Lost => {\n                // Re-acquired" => "TrackLifecycleState::Lost if ON => {}\n            OLD";
    "sightings are added to the observations" in LIFE:
        "self.observation_times_count.max(count)" => "(if ON { self.observation_times_count + count } else { OLD })";
    // Pairs.
    "classes don't matter" in PAIRS:
        "(Some(a), Some(b)) => a == b," => "(Some(a), Some(b)) => ON || a == b,";
    "a penalty without the confidence" in TRACKER:
        "self.config.class_prior_penalty * prior.confidence"
        => "self.config.class_prior_penalty * (if ON { 1.0 } else { prior.confidence })";
    "a penalty where the classes agree" in TRACKER:
        "prior.label != observed" => "(prior.label != observed) != ON";
    "the unmatched cost is twice the gate" in TRACKER:
        ".unwrap_or(self.config.gate_squared_mahalanobis)" => ".unwrap_or(self.config.gate_squared_mahalanobis * (if ON { 2.0 } else { 1.0 }))";
    "the window's end is outside" in TRACKER:
        "batch.timestamp.as_nanos() - last.as_nanos() <= window"
        => "(if ON { batch.timestamp.as_nanos() - last.as_nanos() < window } else { OLD })";
    "all tracks are recent" in TRACKER:
        ".partition(|&i| first[i])" => ".partition(|&i| ON || first[i])";
    "the old tracks are paired first" in TRACKER:
        "cascade_assignment(&costs, n_observations, &recent, unmatched_cost)?"
        => "cascade_assignment(&costs, n_observations, &recent.iter().map(|first| *first != ON).collect::<Vec<_>>(), unmatched_cost)?";
    "the cascade's rows are not sorted" in TRACKER:
        "unmatched_rows.sort_unstable();" => "if !ON { OLD }";
    "on a tie the later column" in ASSIGNMENT:
        "if minv[j] < delta {" => "if minv[j] < delta || (ON && minv[j] == delta) {";
    "on a tie the later path" in ASSIGNMENT:
        "if cur < minv[j] {" => "if cur < minv[j] || (ON && cur == minv[j]) {";
    "a potential is not moved" in ASSIGNMENT:
        "u[p[j]] += delta;" => "if !ON { OLD }";
    // Filters.
    "seconds by a product" in TRACKER:
        "dt_ns as f64 / 1.0e9" => "(if ON { dt_ns as f64 * 1.0e-9 } else { OLD })";
    "a prediction leaves the track's time" in TRACKER:
        "track.state_timestamp = timestamp;" => "if !ON { OLD }";
    "position noise divided first" in MODELS:
        "q * dt3 / 3.0" => "(if ON { q * (dt3 / 3.0) } else { OLD })";
    "a prediction is not symmetrized" in FILTER:
        "let predicted_cov = symmetrize(&predicted_cov);" => "let predicted_cov = if ON { predicted_cov } else { symmetrize(&predicted_cov) };";
    "an update is not symmetrized" in FILTER:
        "let updated_cov = symmetrize(&updated_cov);" => "let updated_cov = if ON { updated_cov } else { symmetrize(&updated_cov) };";
    "an update without the noise's term" in FILTER:
        "i_kh * self.covariance * i_kh.transpose() + gain * r * gain.transpose()"
        => "(if ON { i_kh * self.covariance * i_kh.transpose() } else { OLD })";
    "an update without the second factor" in FILTER:
        "i_kh * self.covariance * i_kh.transpose() + gain * r * gain.transpose()"
        => "(if ON { i_kh * self.covariance } else { OLD })";
    "symmetrized by two halves" in MATRICES:
        "0.5 * (m + m.transpose())" => "(if ON { 0.5 * *m + 0.5 * m.transpose() } else { OLD })";
    "a velocity's deviation is not squared" in TRACKER:
        "&(Matrix2::identity() * (std * std))," => "&(Matrix2::identity() * (if ON { std } else { std * std })),";
    // Updates.
    "marks stay from the last batch" in TRACKER:
        "track.updated_this_batch = false;" => "if !ON { OLD }";
    "an update sets no mark" in TRACKER:
        "self.tracks[i].updated_this_batch = true;" => "if !ON { OLD }";
    "the class is taken anew" in TRACKER:
        "if track.class_label.is_none() {" => "if ON || track.class_label.is_none() {";
    "the newest contributing sensor goes" in SENSORS:
        "sensors.remove(0);" => "if ON { sensors.pop(); } else { sensors.remove(0); }";
    "a sensor contributes twice" in SENSORS:
        "if sensors.contains(&sensor) {" => "if !ON && sensors.contains(&sensor) {";
    "the last sensor stays" in TRACKER:
        "track.last_update_sensor = Some(batch.sensor_id);" => "if !ON { OLD }";
    "a confidence is not clamped" in TRACKER:
        "confidence.clamp(0.0, 1.0)" => "(if ON { confidence } else { OLD })";
    "any confidence is taken" in TRACKER:
        "!confidence.is_finite()" => "(!ON && !confidence.is_finite())";
    // Births.
    "a score equal to the threshold is too low" in TRACKER:
        "score < threshold" => "(OLD || (ON && score == threshold))";
    "a score NaN is too low" in TRACKER:
        "score < threshold" => "(OLD || (ON && score.is_nan()))";
    "births in the other order" in TRACKER:
        "for &j in &assignment.unmatched_columns {"
        => "let mut columns = assignment.unmatched_columns.clone(); if ON { columns.reverse(); } for &j in &columns {";
    "a birth has no velocity" in TRACKER:
        "state[3] = velocity.x;" => "if !ON { OLD }";
    "a birth's velocity has the initial variance" in TRACKER:
        "covariance[(3, 3)] = std * std;" => "if !ON { OLD }";
    "a birth is not an observation" in TRACKER:
        "lifecycle.register_observation(timestamp, &self.config.common);" => "if !ON { OLD }";
    "near is also at the distance" in TRACKER:
        "(p - observation.position).norm() < min_distance"
        => "(if ON { (p - observation.position).norm() <= min_distance } else { OLD })";
    "tracks that are not confirmed count too" in TRACKER:
        "track.lifecycle.state() == TrackLifecycleState::Confirmed" => "(ON || track.lifecycle.state() == TrackLifecycleState::Confirmed)";
    "a candidate is forgotten at its timeout" in TRACKER:
        "now - c.last_seen.as_nanos() <= timeout"
        => "(if ON { now - c.last_seen.as_nanos() < timeout } else { OLD })";
    "a candidate is continued twice a batch" in TRACKER:
        "c.last_seen != timestamp" => "(ON || c.last_seen != timestamp)";
    "a candidate at the radius is continued" in TRACKER:
        "d < radius" => "(d < radius || (ON && d == radius))";
    "the later candidate on a tie" in TRACKER:
        "a.1.total_cmp(&b.1)" => "(if ON { a.1.total_cmp(&b.1).then(b.0.cmp(&a.0)) } else { OLD })";
    "the first candidate near enough" in TRACKER:
        "a.1.total_cmp(&b.1)" => "(if ON { a.0.cmp(&b.0) } else { OLD })";
    "a candidate stays where it was first" in TRACKER:
        "candidate.position = position;" => "if !ON { OLD }";
    "one sighting more begins a track" in TRACKER:
        "candidate.sightings >= required" => "candidate.sightings >= required + u32::from(ON)";
    "candidates close up" in TRACKER:
        "self.birth_candidates.swap_remove(k).sightings"
        => "(if ON { self.birth_candidates.remove(k) } else { self.birth_candidates.swap_remove(k) }).sightings";
    "sightings are not credited" in TRACKER:
        "if sightings > 1 {" => "if !ON && sightings > 1 {";
    // What no sequence can tell, or hardly one.
    "unseen: half of the squared time first" in MODELS:
        "out[(pos, vel)] += q * dt2 / 2.0;" => "out[(pos, vel)] += if ON { q * (dt2 / 2.0) } else { q * dt2 / 2.0 };";
    "unseen: a forbidden pair is less dear" in ASSIGNMENT:
        "* 1.0e6 + 1.0e9" => "* (if ON { 1.0e3 } else { 1.0e6 }) + 1.0e9";
    "unseen: groups are joined the other way" in ASSIGNMENT:
        "if self.rank[ra] < self.rank[rb] {" => "if (self.rank[ra] < self.rank[rb]) != ON {";
};
