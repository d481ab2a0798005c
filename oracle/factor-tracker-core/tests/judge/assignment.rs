//! The assignment: worked cases, ties, refusals, and its totals against every pairing.

use factor_tracker_core::assignment::Assignment;
use factor_tracker_core::judge::assignment::{assignment, least_total, total, Table};
use factor_tracker_core::judge::flow::least_total_by_flow;
use inputs::Random;

const FORBIDDEN: f64 = f64::INFINITY;

fn solved<const R: usize, const C: usize>(
    costs: [[f64; C]; R],
    row_cost: f64,
) -> Result<Assignment, u32> {
    assignment(&Table {
        rows: R,
        columns: C,
        costs: costs.as_flattened().to_vec(),
        row_cost,
        column_cost: 0.0,
    })
}

fn pairs<const R: usize, const C: usize>(
    costs: [[f64; C]; R],
    row_cost: f64,
) -> Vec<(usize, usize)> {
    solved(costs, row_cost).unwrap().pairs
}

#[test]
fn worked_cases() {
    assert_eq!(
        pairs([[1.0, 2.0], [FORBIDDEN, 4.0]], 10.0),
        [(0, 0), (1, 1)]
    );
    assert_eq!(pairs([[10.0]], 10.0), [(0, 0)]);
    let apart = solved([[11.0]], 10.0).unwrap();
    assert_eq!(
        (apart.unmatched_rows, apart.unmatched_columns),
        (vec![0], vec![0])
    );
    let none = solved([[FORBIDDEN; 2]; 2], 10.0).unwrap();
    assert_eq!(
        (none.unmatched_rows, none.unmatched_columns),
        (vec![0, 1], vec![0, 1])
    );
    let no_rows = solved::<0, 3>([], 10.0).unwrap();
    assert_eq!(no_rows.unmatched_columns, [0, 1, 2]);
}

#[test]
fn ties() {
    assert_eq!(pairs([[1.0, 1.0]], 10.0), [(0, 1)]);
    assert_eq!(pairs([[1.0], [1.0]], 10.0), [(1, 0)]);
    assert_eq!(pairs([[1.0; 2]; 2], 10.0), [(0, 0), (1, 1)]);
    assert_eq!(pairs([[10.0], [10.0]], 10.0), [(1, 0)]);
}

#[test]
fn a_step_that_is_not_finite() {
    assert_eq!(solved([[-f64::MAX], [-f64::MAX]], f64::MAX), Err(10));
    let no_negative = [[f64::MAX, 1.0], [1e300, 1e308], [0.0, f64::MAX / 2.0]];
    assert_eq!(solved(no_negative, f64::MAX), Err(10));
}

#[test]
fn a_forbidden_pair_outside_the_range() {
    assert_eq!(
        pairs([[-1e26, FORBIDDEN], [-2e26, -1.0]], 0.0),
        [(0, 1), (1, 0)]
    );
}

#[test]
fn refusals_in_order() {
    let refused = |rows, columns, costs: usize, row_cost| {
        let costs = vec![0.0; costs];
        let table = Table {
            rows,
            columns,
            costs,
            row_cost,
            column_cost: 0.0,
        };
        assignment(&table).err()
    };
    assert_eq!(refused(65, 0, 1, f64::NAN), Some(11));
    assert_eq!(refused(0, 65, 1, f64::NAN), Some(11));
    assert_eq!(refused(1, 2, 1, f64::INFINITY), Some(9));
    assert_eq!(refused(1, 2, 1, 0.0), Some(10));
    assert_eq!(refused(0, 2, 1, 0.0), Some(10));
    assert_eq!(refused(0, 2, 0, f64::NAN), Some(9));
    assert_eq!(refused(64, 64, 4096, 0.0), None);
}

/// Small tables of few different costs, so that ties are common, and of costs at the range's ends.
fn whole_table(random: &mut Random) -> (Vec<Vec<Option<i64>>>, usize, i64) {
    let (rows, columns) = (random.below(7) as usize, random.below(7) as usize);
    let span = [3, 20, 1_000_000][random.below(3) as usize];
    let whole = |random: &mut Random| random.below(2 * span + 1) as i64 - span as i64;
    let costs = (0..rows)
        .map(|_| {
            (0..columns)
                .map(|_| (random.below(4) > 0).then(|| whole(random)))
                .collect()
        })
        .collect();
    (costs, columns, whole(random))
}

#[test]
fn the_total_is_least_for_whole_costs() {
    let mut random = Random::new(1);
    for _ in 0..20_000 {
        let (costs, columns, row_cost) = whole_table(&mut random);
        let flat = costs
            .iter()
            .flatten()
            .map(|cost| cost.map_or(FORBIDDEN, |c| c as f64));
        let given = assignment(&Table {
            rows: costs.len(),
            columns,
            costs: flat.collect(),
            row_cost: row_cost as f64,
            column_cost: 0.0,
        });
        let given = given.expect("whole costs in range are taken");
        assert_eq!(
            total(&costs, &given, row_cost),
            Some(least_total(&costs, columns, row_cost))
        );
    }
}

#[test]
fn flows_find_the_same_totals() {
    let mut random = Random::new(2);
    for _ in 0..20_000 {
        let (costs, columns, row_cost) = whole_table(&mut random);
        assert_eq!(
            least_total_by_flow(&costs, columns, row_cost),
            least_total(&costs, columns, row_cost)
        );
    }
}
