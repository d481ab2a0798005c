//! The assignment over a flat table, and the least total found by trying every set of columns.

use super::{refusal, PLACES};
use crate::assignment::{linear_assignment, Assignment};

/// A table as it is lent: row after row.
#[derive(Clone, Debug)]
pub struct Table {
    pub rows: usize,
    pub columns: usize,
    pub costs: Vec<f64>,
    pub row_cost: f64,
    pub column_cost: f64,
}

/// The pairing, or the refusal's number. The limit and the table's length are the specification's own tests.
pub fn assignment(table: &Table) -> Result<Assignment, u32> {
    if table.rows > PLACES || table.columns > PLACES {
        return Err(11);
    }
    let solved = |costs: &[Vec<f64>]| {
        linear_assignment(costs, table.columns, table.row_cost, table.column_cost)
            .map_err(|error| refusal::of_numeric(&error))
    };
    if table.costs.len() != table.rows * table.columns {
        // Rows of no length: the Rust tests the unmatched costs before it comes to answer them.
        solved(&[])?;
        return Err(10);
    }
    let row = |i: usize| table.costs[i * table.columns..][..table.columns].to_vec();
    solved(&(0..table.rows).map(row).collect::<Vec<_>>())
}

/// The smallest total of all pairings of allowed pairs, for whole costs: the costs of the pairs, plus the row cost
/// for each unmatched row. It tries every set of columns for the rows so far, so columns must be few.
pub fn least_total(costs: &[Vec<Option<i64>>], columns: usize, row_cost: i64) -> i64 {
    let mut least = vec![None; 1 << columns];
    least[0] = Some(0);
    for row in costs {
        let mut next = vec![None; 1 << columns];
        for (taken, total) in least.iter().enumerate() {
            let Some(total) = total else { continue };
            lower(&mut next[taken], total + row_cost);
            for (j, cost) in row.iter().enumerate() {
                if let (0, Some(cost)) = (taken >> j & 1, cost) {
                    lower(&mut next[taken | 1 << j], total + cost);
                }
            }
        }
        least = next;
    }
    let totals = least.into_iter().flatten();
    totals.min().expect("leaving all unmatched is a pairing")
}

fn lower(place: &mut Option<i64>, total: i64) {
    *place = Some(place.map_or(total, |least| least.min(total)));
}

/// The total of a pairing given; nothing if it has a forbidden pair.
pub fn total(costs: &[Vec<Option<i64>>], given: &Assignment, row_cost: i64) -> Option<i64> {
    let pairs: Option<i64> = given.pairs.iter().map(|&(i, j)| costs[i][j]).sum();
    Some(pairs? + row_cost * given.unmatched_rows.len() as i64)
}
