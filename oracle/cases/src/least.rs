//! Whole-number tables; the reply is the least total of all pairings of allowed pairs.

use factor_tracker_core::assignment::Assignment;
use factor_tracker_core::judge::assignment::{least_total, total, Table};
use factor_tracker_core::judge::flow::least_total_by_flow;
use inputs::Random;
use trials::Case;

use crate::assignment::{smaller_tables, AssignmentCase};

/// Whole costs and a whole row cost in the proved range, and column cost 0; NaN forbids.
#[derive(Clone, Debug)]
pub struct LeastCase(pub Table);

/// Most columns for which every set of them is tried; the least total of a wider table is found by flows.
const FEW: usize = 8;

/// Few rows and columns mostly; now and then up to the limit.
fn side(random: &mut Random, wide: bool) -> usize {
    match (wide, random.below(8)) {
        (true, 0) => 64,
        (true, _) => random.below(65) as usize,
        (false, _) => random.below(FEW as u64 + 1) as usize,
    }
}

impl LeastCase {
    /// The total of a pairing given; nothing unless it is one: each row and column in one pair or one unmatched
    /// list, lists ascending, no pair forbidden.
    pub fn total_of(&self, given: &Assignment) -> Option<i64> {
        let ascends = |list: &[usize]| list.windows(2).all(|two| two[0] < two[1]);
        let covers = |paired: Vec<usize>, alone: &[usize], count: usize| {
            let mut all = [paired.as_slice(), alone].concat();
            all.sort_unstable();
            ascends(alone) && all.into_iter().eq(0..count)
        };
        let rows = given.pairs.iter().map(|pair| pair.0).collect::<Vec<_>>();
        let columns = given.pairs.iter().map(|pair| pair.1).collect();
        let sound = ascends(&rows)
            && covers(rows, &given.unmatched_rows, self.0.rows)
            && covers(columns, &given.unmatched_columns, self.0.columns);
        sound
            .then(|| total(&self.costs(), given, self.0.row_cost as i64))
            .flatten()
    }

    fn costs(&self) -> Vec<Vec<Option<i64>>> {
        let cost = |cost: &f64| cost.is_finite().then_some(*cost as i64);
        let row = |i: usize| {
            self.0.costs[i * self.0.columns..][..self.0.columns]
                .iter()
                .map(cost)
                .collect()
        };
        (0..self.0.rows).map(row).collect()
    }
}

impl Case for LeastCase {
    type Reply = Option<i64>;

    fn fixed() -> Vec<Self> {
        Vec::new()
    }

    fn random(random: &mut Random) -> Self {
        let wide = random.below(64) == 0;
        let (rows, columns) = (side(random, wide), side(random, wide));
        let forbidden = random.below(6);
        let span = [2, 30, 1_000_000][random.below(3) as usize];
        let whole = |random: &mut Random| random.below(2 * span + 1) as f64 - span as f64;
        let cost = |random: &mut Random| match random.below(6) < forbidden {
            true => f64::NAN,
            false => whole(random),
        };
        let costs = (0..rows * columns).map(|_| cost(random)).collect();
        let row_cost = whole(random);
        LeastCase(Table {
            rows,
            columns,
            costs,
            row_cost,
            column_cost: 0.0,
        })
    }

    fn judged(&self) -> Option<i64> {
        let least = match self.0.columns <= FEW {
            true => least_total,
            false => least_total_by_flow,
        };
        Some(least(&self.costs(), self.0.columns, self.0.row_cost as i64))
    }

    /// Rows and columns only: a number made smaller might not be whole.
    fn smaller(&self) -> impl Iterator<Item = Self> {
        smaller_tables(&self.0).map(LeastCase)
    }

    fn print(&self) -> String {
        AssignmentCase(self.0.clone()).print()
    }

    fn parse(words: &[String]) -> Option<Self> {
        let AssignmentCase(table) = AssignmentCase::parse(words)?;
        let whole = |x: f64| x.fract() == 0.0 && x.abs() <= 1_000_000.0;
        let sound = whole(table.row_cost)
            && table.column_cost == 0.0
            && table.costs.len() == table.rows * table.columns
            && table.rows <= 64
            && table.columns <= 64
            && table
                .costs
                .iter()
                .all(|cost| !cost.is_finite() || whole(*cost));
        sound.then_some(LeastCase(table))
    }

    fn told_apart(ours: &Option<i64>, theirs: &Option<i64>) -> String {
        let shown = |total: &Option<i64>| {
            total.map_or("not a pairing".to_string(), |total| total.to_string())
        };
        format!(
            "total of ours {}, least total {}",
            shown(ours),
            shown(theirs)
        )
    }
}
