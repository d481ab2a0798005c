//! The least total of all pairings of allowed pairs as a flow of least cost, found path by path. It shares nothing with the
//! assignment's own steps, and is quick enough for the largest tables.

/// The smallest total for whole costs: the costs of the pairs, plus the row cost for each unmatched row.
pub fn least_total_by_flow(costs: &[Vec<Option<i64>>], columns: usize, row_cost: i64) -> i64 {
    // A pair saves the row cost, so that leaving all rows alone costs nothing more.
    let mut flow = Flow {
        costs,
        row_cost,
        row_of: vec![None; columns],
        column_of: vec![None; costs.len()],
    };
    let mut total = row_cost * costs.len() as i64;
    while let Some(cost) = flow.lengthen() {
        total += cost;
    }
    total
}

struct Flow<'a> {
    costs: &'a [Vec<Option<i64>>],
    row_cost: i64,
    row_of: Vec<Option<usize>>,
    column_of: Vec<Option<usize>>,
}

/// The cheapest known way to a column, and the row that it comes from.
type Way = Option<(i64, usize)>;

impl Flow<'_> {
    fn cost(&self, row: usize, column: usize) -> Option<i64> {
        self.costs[row][column].map(|cost| cost - self.row_cost)
    }

    /// Takes the cheapest way from a free row to a free column, if it costs less than nothing.
    fn lengthen(&mut self) -> Option<i64> {
        let ways = self.ways();
        let ends = (0..self.row_of.len()).filter(|column| self.row_of[*column].is_none());
        let (cost, end) = ends
            .filter_map(|column| ways[column].map(|(cost, _)| (cost, column)))
            .min()?;
        if cost >= 0 {
            return None;
        }
        let mut next = Some(end);
        while let Some(column) = next {
            let (_, row) = ways[column].expect("a way comes from somewhere");
            next = self.column_of[row].replace(column);
            self.row_of[column] = Some(row);
        }
        Some(cost)
    }

    /// The cheapest ways to all columns: over a pair, and back over one that is made. Bellman and Ford's rounds.
    fn ways(&self) -> Vec<Way> {
        let mut ways: Vec<Way> = vec![None; self.row_of.len()];
        loop {
            let mut changed = false;
            for row in 0..self.costs.len() {
                let Some(so_far) = self.cost_to_row(row, &ways) else {
                    continue;
                };
                for column in 0..ways.len() {
                    let Some(cost) = self.cost(row, column) else {
                        continue;
                    };
                    let there = so_far + cost;
                    let known = ways[column].map(|(cost, _)| cost);
                    if self.column_of[row] != Some(column)
                        && known.is_none_or(|known| there < known)
                    {
                        ways[column] = Some((there, row));
                        changed = true;
                    }
                }
            }
            if !changed {
                return ways;
            }
        }
    }

    /// Nothing to a free row; to another the way to its column, and back over their pair.
    fn cost_to_row(&self, row: usize, ways: &[Way]) -> Option<i64> {
        let Some(column) = self.column_of[row] else {
            return Some(0);
        };
        let (cost, _) = ways[column]?;
        Some(
            cost - self
                .cost(row, column)
                .expect("a pair that is made is allowed"),
        )
    }
}
