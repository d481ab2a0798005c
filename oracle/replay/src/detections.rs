//! Detections: the calls of a case, and its replies as lines and back.

use cases::detections::{DetectionReply, DetectionsCase, LABELS};
use factor_tracker_core::judge::detections::{Detection, Verdict};

use crate::{filters, Line};

/// Where a velocity stands among the numbers that calls take.
const VELOCITY: usize = 54;

/// How many lines answer each detection.
const LINES: usize = 3;

/// The track's filter, then for each detection its numbers, its check, its pair and what births ask.
pub fn calls(case: &DetectionsCase) -> Vec<Line> {
    let mut calls = filters::creation(&case.state, &case.covariance);
    calls.extend(case.detections.iter().flat_map(|d| of_detection(case, d)));
    calls
}

fn of_detection(case: &DetectionsCase, detection: &Detection) -> Vec<Line> {
    let mut calls = filters::measurement(&detection.position, &detection.covariance);
    let measured = |[x, y]: [f64; 2]| [x, y, 1.0];
    let velocity = detection.velocity.map_or([0.0; 3], measured);
    calls.extend(filters::loads(VELOCITY, &velocity));
    calls.push(Line::of('o', 0));
    let confidence = case.prior.map_or(0.0, |prior| prior.confidence);
    let labels = [
        case.class,
        case.prior.map(|prior| prior.label),
        detection.class,
    ];
    let rule = [case.rule.gate, case.rule.penalty, confidence].map(f64::to_bits);
    calls.push(Line::new('p', [rule[0], rule[1], rule[2], packed(labels)]));
    let birth = [detection.score.unwrap_or(0.0), case.threshold, case.radius].map(f64::to_bits);
    let scored = u64::from(detection.score.is_some());
    calls.push(Line::new('b', [birth[0], birth[1], birth[2], scored]));
    calls
}

/// Three labels in one number: 0 where one is absent, else one more than it.
fn packed(labels: [Option<u32>; 3]) -> u64 {
    let digit = |label: Option<u32>| label.map_or(0, |label| u64::from(label) + 1);
    let [class, prior, seen] = labels.map(digit);
    class + (LABELS + 1) * (prior + (LABELS + 1) * seen)
}

/// How many lines answer the calls.
pub fn answer_lines(case: &DetectionsCase) -> usize {
    filters::CREATED + LINES * case.detections.len()
}

/// The replies that the lines stand for.
pub fn replies(lines: &[Line]) -> Result<Vec<DetectionReply>, u32> {
    let (created, rest) = lines.split_at(filters::CREATED);
    match created[0].numbers[0] {
        0 => Ok(rest.chunks(LINES).map(reply).collect()),
        number => Err(number as u32),
    }
}

fn reply(lines: &[Line]) -> DetectionReply {
    let [check, ..] = lines[0].numbers;
    let [number, rule, cost, _] = lines[1].numbers;
    let [below, distance, nearer, _] = lines[2].numbers;
    let verdict = match (number, rule) {
        (0, 0) => Verdict::Allowed(f64::from_bits(cost)),
        (0, 1) => Verdict::ClassesForbid,
        (0, 2) => Verdict::GateForbids,
        (0, _) => Verdict::CostForbids,
        _ => Verdict::Refused(number as u32),
    };
    DetectionReply {
        check: check as u32,
        verdict: (check == 0).then_some(verdict),
        below: below != 0,
        distance,
        nearer: nearer != 0,
    }
}

/// The lines that answer the oracle's replies. What is refused by its check is paired with nothing.
pub fn lines(case: &DetectionsCase, replies: &Result<Vec<DetectionReply>, u32>) -> Vec<Line> {
    let number = replies.as_ref().err().copied().unwrap_or(0);
    let mut lines = filters::created(number, &case.state, &case.covariance);
    let replies = replies.as_deref().unwrap_or(&[]);
    lines.extend(replies.iter().flat_map(lines_of));
    lines
}

fn lines_of(reply: &DetectionReply) -> [Line; LINES] {
    let pair = match reply.verdict {
        None => [u64::from(reply.check), 0, 0, 0],
        Some(Verdict::Allowed(cost)) => [0, 0, cost.to_bits(), 0],
        Some(Verdict::ClassesForbid) => [0, 1, 0, 0],
        Some(Verdict::GateForbids) => [0, 2, 0, 0],
        Some(Verdict::CostForbids) => [0, 3, 0, 0],
        Some(Verdict::Refused(number)) => [u64::from(number), 0, 0, 0],
    };
    let (below, nearer) = (u64::from(reply.below), u64::from(reply.nearer));
    [
        Line::of('o', u64::from(reply.check)),
        Line::new('p', pair),
        Line::new('b', [below, reply.distance, nearer, 0]),
    ]
}

#[cfg(test)]
mod tests {
    use super::*;

    use inputs::Random;
    use trials::Case;

    #[test]
    fn replies_are_read_back() {
        let mut random = Random::new(1);
        for _ in 0..300 {
            let case = DetectionsCase::random(&mut random);
            let judged = case.judged();
            if judged.is_ok() {
                let lines = lines(&case, &judged);
                assert_eq!(lines.len(), answer_lines(&case));
                assert_eq!(replies(&lines), judged);
            }
        }
    }
}
