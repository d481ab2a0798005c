//! Cost tables of every kind, and the worked ones.

use cases::assignment::AssignmentCase;
use inputs::Random;
use replay::tables;
use trials::Case;

use crate::Recording;

/// The seed of the random tables, and how many there are: of every kind, with a step that is not finite, and with a forbidden
/// pair that is given.
const SEED: u64 = 4;
const TABLES: usize = 600;
const STOPPED: usize = 30;
const LOST: usize = 30;

/// Most costs of a random table, so that the files stay small.
const COSTS: usize = 24;

pub fn record(recording: &mut Recording) {
    for case in recorded() {
        recording.calls.extend(tables::calls(&case.0));
        recording
            .answers
            .extend(tables::lines(&case.judged().given));
    }
}

fn recorded() -> Vec<AssignmentCase> {
    let mut random = Random::new(SEED);
    let mut drawn = |count: usize, wanted: fn(&AssignmentCase) -> bool| {
        let all = std::iter::repeat_with(|| AssignmentCase::random(&mut random));
        let small = all.filter(|case| case.0.costs.len() <= COSTS);
        small.filter(wanted).take(count).collect::<Vec<_>>()
    };
    let worked: Vec<_> = AssignmentCase::fixed()
        .into_iter()
        .filter(is_short)
        .collect();
    let any = drawn(TABLES, |_| true);
    let stopped = drawn(STOPPED, stops);
    let lost = drawn(LOST, gives_a_forbidden_pair);
    [worked, any, stopped, lost].concat()
}

/// A worked table that few lines load.
fn is_short(case: &AssignmentCase) -> bool {
    tables::calls(&case.0).len() <= 8
}

/// The table is as long as stated, and a step is not finite.
fn stops(case: &AssignmentCase) -> bool {
    let as_stated = case.0.costs.len() == case.0.rows * case.0.columns;
    as_stated && case.judged().given == Err(10)
}

fn gives_a_forbidden_pair(case: &AssignmentCase) -> bool {
    let pairs = case.judged().given.map_or(Vec::new(), |given| given.pairs);
    let cost = |(row, column): (usize, usize)| case.0.costs[row * case.0.columns + column];
    pairs.into_iter().any(|pair| !cost(pair).is_finite())
}

#[cfg(test)]
mod tests {
    use std::collections::BTreeSet;

    use super::*;

    /// Every refusal is met, the worked steps that are not finite and forbidden pair among the rest, and the most rows and columns.
    #[test]
    fn tables_of_every_kind() {
        let cases = recorded();
        let number = |case: &AssignmentCase| case.judged().given.err().unwrap_or(0);
        let numbers: BTreeSet<u32> = cases.iter().map(number).collect();
        assert_eq!(numbers.into_iter().collect::<Vec<_>>(), [0, 9, 10, 11]);
        let count =
            |wanted: fn(&AssignmentCase) -> bool| cases.iter().filter(|c| wanted(c)).count();
        assert!(count(|_| true) > TABLES + STOPPED + LOST);
        assert!(count(stops) >= STOPPED + 2);
        assert!(count(gives_a_forbidden_pair) > LOST);
        assert!(count(|case| (case.0.rows, case.0.columns) == (64, 64)) > 0);
    }
}
