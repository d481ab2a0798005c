//! Lines of `assign`, right and spoilt, and the longest.

use cases::line::{LineCase, LONGEST};
use inputs::Random;
use replay::lines;
use trials::Case;

use crate::Recording;

/// The seed of the random lines, and how many there are.
const SEED: u64 = 5;
const LINES: usize = 400;

/// Most bytes of a random line, so that the files stay small.
const SHORT: usize = 96;

pub fn record(recording: &mut Recording) {
    for case in recorded() {
        recording.calls.extend(lines::calls(&case.0));
        recording.answers.extend(lines::lines(&case.judged()));
    }
}

/// The fixed lines that are short, one that is as long as a line may be, two that are a byte longer, and random ones.
fn recorded() -> Vec<LineCase> {
    let mut random = Random::new(SEED);
    let drawn = std::iter::repeat_with(|| LineCase::random(&mut random));
    let more = drawn.filter(is_short).take(LINES);
    let kept = |case: &LineCase| is_short(case) || is_longest(case);
    let fixed = LineCase::fixed().into_iter().filter(kept);
    fixed.chain(more).collect()
}

fn is_short(case: &LineCase) -> bool {
    case.0.len() <= SHORT
}

/// The most rows and columns, in the longest line or in one byte more, within the line or behind it.
fn is_longest(case: &LineCase) -> bool {
    let lengths = LONGEST..=LONGEST + 1;
    lengths.contains(&case.0.len()) && case.0.starts_with(b"(assign 64 64 ")
}

#[cfg(test)]
mod tests {
    use std::collections::BTreeSet;

    use super::*;

    /// Every refusal is met, and the three longest lines.
    #[test]
    fn lines_of_every_kind() {
        let answers = |cases: &[LineCase]| cases.iter().map(Case::judged).collect::<BTreeSet<_>>();
        let cases = recorded();
        let found = answers(&cases);
        for number in [10, 11, 13] {
            assert!(found.contains(format!("(refused {number})\n").as_bytes()));
        }
        assert!(found.len() > LINES / 10);
        let longest: Vec<_> = cases.into_iter().filter(is_longest).collect();
        let lengths: Vec<usize> = longest.iter().map(|case| case.0.len()).collect();
        assert_eq!(lengths, [LONGEST, LONGEST + 1, LONGEST + 1]);
        assert_eq!(answers(&longest).len(), 2);
    }
}
