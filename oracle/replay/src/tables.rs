//! Cost tables: the calls of a table, and its assignment as lines.

use factor_tracker_core::assignment::Assignment;
use factor_tracker_core::judge::assignment::Table;

use crate::Line;

/// What stands behind the last item of a list.
const ENDED: u64 = u64::MAX;

/// The costs, four to a line or one for all, then the call.
pub fn calls(table: &Table) -> Vec<Line> {
    let bits: Vec<u64> = table.costs.iter().map(|cost| cost.to_bits()).collect();
    let sides = two(table.rows, table.columns);
    let call = [
        bits.len() as u64,
        sides,
        table.row_cost.to_bits(),
        table.column_cost.to_bits(),
    ];
    let all_equal = bits.len() > 4 && bits.iter().all(|cost| *cost == bits[0]);
    let mut lines = match all_equal {
        true => vec![Line::new('M', [bits.len() as u64, bits[0], 0, 0])],
        false => fours('B', &bits, 0),
    };
    lines.push(Line::new('H', call));
    lines
}

/// The lines that an assignment or a refusal is answered by.
pub fn lines(given: &Result<Assignment, u32>) -> Vec<Line> {
    let given = match given {
        Ok(given) => given,
        Err(number) => return vec![Line::of('H', u64::from(*number))],
    };
    let pairs = given.pairs.iter().map(|(row, column)| two(*row, *column));
    let left = given.unmatched_rows.iter().chain(&given.unmatched_columns);
    let items: Vec<u64> = pairs.chain(left.map(|item| *item as u64)).collect();
    let counts = [
        0,
        given.pairs.len() as u64,
        given.unmatched_rows.len() as u64,
        given.unmatched_columns.len() as u64,
    ];
    let mut lines = vec![Line::new('H', counts)];
    lines.extend(fours('J', &items, ENDED));
    lines
}

/// Two small numbers in one.
fn two(high: usize, low: usize) -> u64 {
    (high as u64) << 32 | low as u64
}

/// Numbers four to a line, the last line filled up.
fn fours(letter: char, numbers: &[u64], fill: u64) -> Vec<Line> {
    let line = |four: &[u64]| {
        let at = |place: usize| four.get(place).copied().unwrap_or(fill);
        Line::new(letter, [0, 1, 2, 3].map(at))
    };
    numbers.chunks(4).map(line).collect()
}

#[cfg(test)]
mod tests {
    use super::*;

    #[test]
    fn a_table_and_its_answer() {
        let table = |rows, columns, costs: &[f64]| Table {
            rows,
            columns,
            costs: costs.to_vec(),
            row_cost: 10.0,
            column_cost: 0.0,
        };
        let ten = 10.0_f64.to_bits();
        let one = 1.0_f64.to_bits();
        assert_eq!(
            calls(&table(2, 3, &[1.0; 6])),
            [
                Line::new('M', [6, one, 0, 0]),
                Line::new('H', [6, 2 << 32 | 3, ten, 0])
            ]
        );
        assert_eq!(
            calls(&table(1, 1, &[1.0])),
            [
                Line::new('B', [one, 0, 0, 0]),
                Line::new('H', [1, 1 << 32 | 1, ten, 0])
            ]
        );
        let given = Assignment {
            pairs: vec![(0, 1), (2, 0)],
            unmatched_rows: vec![1],
            unmatched_columns: vec![2, 3],
        };
        assert_eq!(
            lines(&Ok(given)),
            [
                Line::new('H', [0, 2, 1, 2]),
                Line::new('J', [1, 2 << 32, 1, 2]),
                Line::new('J', [3, ENDED, ENDED, ENDED])
            ]
        );
        assert_eq!(lines(&Err(9)), [Line::new('H', [9, 0, 0, 0])]);
    }
}
