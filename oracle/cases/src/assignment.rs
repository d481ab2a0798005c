//! Cost tables of every kind; the reply is the pairing or the refusal, with what is left of the places that are lent for it.

use factor_tracker_core::assignment::Assignment;
use factor_tracker_core::judge::assignment::{assignment, Table};
use inputs::Random;
use trials::Case;

use crate::floats;
use crate::words::{self, float, Words};

#[derive(Clone, Debug)]
pub struct AssignmentCase(pub Table);

/// What can be seen of a call that is lent a place for each row's column, and of one that is lent a place too few.
#[derive(Clone, Debug, PartialEq, Eq)]
pub struct AssignmentReply {
    pub given: Result<Assignment, u32>,
    /// The places behind those of the rows, and after a refusal all places, are as they were.
    pub rest_untouched: bool,
    /// The refusal where there is a place too few, if all places are as they were. Nothing where there are no rows.
    pub short: Option<u32>,
}

/// How the costs of one table are drawn.
#[derive(Clone, Copy)]
enum Costs {
    /// Few whole numbers: many ties.
    Ties,
    /// Whole numbers of the proved range.
    Whole,
    /// As squared distances are.
    Distances,
    /// Any size, of both signs.
    Wide,
    /// Near the largest numbers, where steps overflow.
    Huge,
    /// So far below zero that the cost that stands for a forbidden pair is lost beside them, and such a pair is given.
    Absorbing,
}

const KINDS: [Costs; 6] = [
    Costs::Ties,
    Costs::Whole,
    Costs::Distances,
    Costs::Wide,
    Costs::Huge,
    Costs::Absorbing,
];

const ABSORBING: [f64; 7] = [0.0, 1.0, -1.0, -1e24, -1e26, -2e26, -4.5e24];

impl Costs {
    fn cost(self, random: &mut Random) -> f64 {
        match self {
            Costs::Ties => random.below(4) as f64 - 1.0,
            Costs::Whole => random.below(2_000_001) as f64 - 1_000_000.0,
            Costs::Distances => 16.266 * floats::unit(random),
            Costs::Wide => {
                floats::within(random, 1.0) * 2.0_f64.powi(random.below(200) as i32 - 100)
            }
            Costs::Absorbing => ABSORBING[random.below(ABSORBING.len() as u64) as usize],
            Costs::Huge => [
                0.0,
                1.0,
                1e300,
                1e308,
                f64::MAX,
                f64::MAX / 2.0,
                -f64::MAX,
                1e26,
                -2e26,
            ][random.below(9) as usize],
        }
    }
}

/// Small sides mostly, so that every way of pairing is met; now and then up to the limit and past it.
fn side(random: &mut Random) -> usize {
    match random.below(64) {
        0 => 64,
        1 => 65,
        2..=5 => random.below(64) as usize,
        _ => random.below(7) as usize,
    }
}

fn forbidden(random: &mut Random) -> f64 {
    [f64::INFINITY, f64::NEG_INFINITY, f64::NAN][random.below(3) as usize]
}

/// A table whose length is as stated, with column cost 0.
fn table<const R: usize, const C: usize>(costs: [[f64; C]; R], row_cost: f64) -> AssignmentCase {
    sized(R, C, costs.as_flattened().to_vec(), row_cost)
}

fn sized(rows: usize, columns: usize, costs: Vec<f64>, row_cost: f64) -> AssignmentCase {
    AssignmentCase(Table {
        rows,
        columns,
        costs,
        row_cost,
        column_cost: 0.0,
    })
}

/// The specification's worked tables; ties; steps that are not finite; a forbidden pair that is given; refusals that meet.
fn worked() -> Vec<AssignmentCase> {
    const NO: f64 = f64::INFINITY;
    let square = |cost: fn(usize, usize) -> f64| {
        let costs = (0..64 * 64).map(|k| cost(k / 64, k % 64)).collect();
        sized(64, 64, costs, 4096.0)
    };
    vec![
        table([[1.0, 2.0], [NO, 4.0]], 10.0),
        table::<0, 3>([], 10.0),
        table([[]; 3], 10.0),
        table::<0, 0>([], 10.0),
        table([[NO; 2]; 2], 10.0),
        table([[f64::NAN, f64::NEG_INFINITY], [NO, -0.0]], 0.0),
        table([[10.0]], 10.0),
        table([[11.0]], 10.0),
        table([[1.0, 1.0]], 10.0),
        table([[1.0], [1.0]], 10.0),
        table([[1.0; 2]; 2], 10.0),
        table([[10.0], [10.0]], 10.0),
        table([[-f64::MAX], [-f64::MAX]], f64::MAX),
        table(
            [[f64::MAX, 1.0], [1e300, 1e308], [0.0, f64::MAX / 2.0]],
            f64::MAX,
        ),
        table([[-1e26, NO], [-2e26, -1.0]], 0.0),
        square(|_, _| 1.0),
        square(|i, j| (i * j) as f64),
        sized(65, 0, vec![1.0], f64::NAN),
        sized(0, 65, vec![1.0], f64::NAN),
        sized(65, 64, vec![1.0; 65 * 64], 1.0),
        sized(1, 2, vec![1.0], NO),
        sized(1, 2, vec![1.0], 1.0),
        sized(0, 2, vec![1.0], 1.0),
        sized(0, 2, vec![], f64::NAN),
        sized(2, 0, vec![], f64::NEG_INFINITY),
    ]
}

impl Case for AssignmentCase {
    type Reply = AssignmentReply;

    fn fixed() -> Vec<Self> {
        worked()
    }

    fn random(random: &mut Random) -> Self {
        let (rows, columns) = (side(random), side(random));
        let kind = KINDS[random.below(KINDS.len() as u64) as usize];
        let share = random.below(5);
        let length = match random.below(32) {
            0 => rows * columns + 1,
            1 => (rows * columns).saturating_sub(1),
            _ => rows * columns,
        };
        let cost = |random: &mut Random| match random.below(5) < share {
            true => forbidden(random),
            false => kind.cost(random),
        };
        let costs = (0..length).map(|_| cost(random)).collect();
        let unmatched = |random: &mut Random| match random.below(40) {
            0 => floats::edge(random),
            _ => kind.cost(random),
        };
        let row_cost = unmatched(random);
        let column_cost = match random.below(4) {
            0 => unmatched(random),
            _ => 0.0,
        };
        AssignmentCase(Table {
            rows,
            columns,
            costs,
            row_cost,
            column_cost,
        })
    }

    fn judged(&self) -> Self::Reply {
        AssignmentReply {
            given: assignment(&self.0),
            rest_untouched: true,
            short: (self.0.rows > 0).then_some(11),
        }
    }

    fn smaller(&self) -> impl Iterator<Item = Self> {
        let tables = smaller_tables(&self.0).map(AssignmentCase);
        tables.chain(words::with_smaller_numbers(self))
    }

    fn print(&self) -> String {
        let Table {
            rows,
            columns,
            costs,
            row_cost,
            column_cost,
        } = &self.0;
        let costs: String = costs
            .iter()
            .map(|cost| format!(" {}", float(*cost)))
            .collect();
        format!(
            "{rows} {columns} {} {}{costs}",
            float(*row_cost),
            float(*column_cost)
        )
    }

    fn parse(words: &[String]) -> Option<Self> {
        let mut words = Words::new(words);
        Some(AssignmentCase(Table {
            rows: words.whole()?,
            columns: words.whole()?,
            row_cost: words.float()?,
            column_cost: words.float()?,
            costs: words.all(Words::float)?,
        }))
    }

    fn told_apart(ours: &Self::Reply, theirs: &Self::Reply) -> String {
        format!("ours   {ours:?}\noracle {theirs:?}")
    }
}

/// The table without each of its rows and columns, where its length is as stated.
pub(crate) fn smaller_tables(table: &Table) -> impl Iterator<Item = Table> + '_ {
    let as_stated = table.costs.len() == table.rows * table.columns;
    let (all_rows, all_columns) = match as_stated {
        true => (table.rows, table.columns),
        false => (0, 0),
    };
    let rows = (0..all_rows).map(|row| Table {
        rows: table.rows - 1,
        costs: kept(table, |i, _| i != row),
        ..table.clone()
    });
    let columns = (0..all_columns).map(|column| Table {
        columns: table.columns - 1,
        costs: kept(table, |_, j| j != column),
        ..table.clone()
    });
    rows.chain(columns)
}

/// The costs at the rows and columns that are kept.
fn kept(table: &Table, keep: impl Fn(usize, usize) -> bool) -> Vec<f64> {
    let places = table.costs.iter().enumerate();
    let kept = places.filter(|(k, _)| keep(k / table.columns, k % table.columns));
    kept.map(|(_, cost)| *cost).collect()
}
