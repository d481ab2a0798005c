//! The assignment beside the Rust's, over tables of one kind and side.

use std::hint::black_box;

use factor_tracker_core::assignment::linear_assignment;
use factor_tracker_core::judge::assignment::Table;
use inputs::Random;
use ours::pikowhanu;

use crate::measure::Row;

/// A kind of table.
pub trait Kind {
    const NAME: &'static str;
    const SIDE: usize;
    const ROW_COST: f64;

    /// Row after row.
    fn costs(random: &mut Random) -> Vec<f64>;
}

/// How many tables there are, and how many calls a run has at least.
const TABLES: usize = 16;
const CALLS: usize = 64;

/// The tables, each as ours and as the Rust's takes it.
pub struct Tables<K> {
    flat: Vec<Table>,
    rows: Vec<Vec<Vec<f64>>>,
    kind: std::marker::PhantomData<K>,
}

/// Passes over the tables in a run: many of those that are quick.
fn passes(side: usize) -> usize {
    (CALLS / TABLES).max(2048 / (side * side))
}

impl<K: Kind> Row for Tables<K> {
    const NAME: &'static str = K::NAME;
    const THEIRS: &'static str = "linear_assignment";

    fn new() -> Self {
        let mut random = Random::new(1);
        let table = |costs| Table {
            rows: K::SIDE,
            columns: K::SIDE,
            costs,
            row_cost: K::ROW_COST,
            column_cost: 0.0,
        };
        let flat: Vec<Table> = (0..TABLES).map(|_| table(K::costs(&mut random))).collect();
        let rows = |table: &Table| table.costs.chunks(K::SIDE).map(<[f64]>::to_vec).collect();
        let rows = flat.iter().map(rows).collect();
        Tables {
            flat,
            rows,
            kind: std::marker::PhantomData,
        }
    }

    fn ours(&self) -> u64 {
        let passes = passes(K::SIDE);
        let mut mates = [0; 64];
        for table in (0..passes).flat_map(|_| &self.flat) {
            black_box(pikowhanu::assignment(black_box(table), &mut mates));
            black_box(&mates);
        }
        (passes * TABLES) as u64
    }

    fn theirs(&self) -> u64 {
        let passes = passes(K::SIDE);
        for costs in (0..passes).flat_map(|_| &self.rows) {
            let given = linear_assignment(black_box(costs), K::SIDE, K::ROW_COST, 0.0);
            black_box(&given);
        }
        (passes * TABLES) as u64
    }
}

/// The gate: the tracker's cost of a track that stays alone.
const GATE: f64 = 16.266;

/// A distance within the gate.
fn distance(random: &mut Random) -> f64 {
    GATE * (random.draw() >> 11) as f64 / (1_u64 << 53) as f64
}

/// Every pair within the gate.
fn dense(side: usize, random: &mut Random) -> Vec<f64> {
    (0..side * side).map(|_| distance(random)).collect()
}

/// Each row may pair with its own column and with one or two others of those that `near` names; the rest is forbidden.
fn sparse(
    side: usize,
    random: &mut Random,
    near: impl Fn(usize, &mut Random) -> usize,
) -> Vec<f64> {
    let mut costs = vec![f64::INFINITY; side * side];
    for row in 0..side {
        costs[row * side + row] = distance(random);
        for _ in 0..1 + random.below(2) {
            let column = near(row, random);
            costs[row * side + column] = distance(random);
        }
    }
    costs
}

/// People in fours: each near some of the same four.
fn in_fours(side: usize, random: &mut Random) -> Vec<f64> {
    sparse(side, random, |row, random| {
        row / 4 * 4 + random.below(4) as usize
    })
}

/// A crowd: each near any other, so that most rows are joined in one group.
fn in_a_crowd(side: usize, random: &mut Random) -> Vec<f64> {
    sparse(side, random, |_, random| random.below(side as u64) as usize)
}

/// Entry i × j, on which the steps change much.
fn products(side: usize, _: &mut Random) -> Vec<f64> {
    (0..side * side)
        .map(|k| (k / side * (k % side)) as f64)
        .collect()
}

macro_rules! kinds {
    ($($kind:ident $side:literal $name:literal $costs:ident $row_cost:expr;)*) => {$(
        pub struct $kind;

        impl Kind for $kind {
            const NAME: &'static str = $name;
            const SIDE: usize = $side;
            const ROW_COST: f64 = $row_cost;

            fn costs(random: &mut Random) -> Vec<f64> {
                $costs($side, random)
            }
        }
    )*};
}

kinds! {
    Dense8 8 "assignment, dense 8" dense GATE;
    Dense32 32 "assignment, dense 32" dense GATE;
    Dense64 64 "assignment, dense 64" dense GATE;
    Fours8 8 "assignment, fours 8" in_fours GATE;
    Fours32 32 "assignment, fours 32" in_fours GATE;
    Fours64 64 "assignment, fours 64" in_fours GATE;
    Crowd8 8 "assignment, crowd 8" in_a_crowd GATE;
    Crowd32 32 "assignment, crowd 32" in_a_crowd GATE;
    Crowd64 64 "assignment, crowd 64" in_a_crowd GATE;
    Products8 8 "assignment, i x j 8" products 4096.0;
    Products32 32 "assignment, i x j 32" products 4096.0;
    Products64 64 "assignment, i x j 64" products 4096.0;
}
