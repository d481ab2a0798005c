//! The product's own functions, as include/pikowhanu.h declares them.

use cases::assignment::AssignmentReply;
use cases::root::RootReply;
use factor_tracker_core::assignment::Assignment;
use factor_tracker_core::judge::assignment::Table;

extern "C" {
    /// 0 and the root in `out`, or the refusal's number and `out` as it was.
    fn pk_root(x: f64, out: *mut f64) -> u32;

    /// 0 and each row's column in `mates`, or the refusal's number and `mates` as it was.
    fn pk_linear_assignment(
        costs: *const f64,
        length: usize,
        rows: usize,
        columns: usize,
        row_cost: f64,
        column_cost: f64,
        mates: *mut u64,
        mates_length: usize,
    ) -> u32;
}

/// What stands in the answer's place before a call: a NaN that no root has.
const UNTOUCHED: u64 = 0x7FF9_5AFE_5AFE_5AFE;

/// The root, with all that can be seen of the call.
pub fn root_reply(x: f64) -> RootReply {
    let mut places = [f64::from_bits(UNTOUCHED); 3];
    let number = unsafe { pk_root(x, places.as_mut_ptr().add(1)) };
    let [before, answer, after] = places.map(f64::to_bits);
    RootReply {
        number,
        written: (answer != UNTOUCHED).then_some(answer),
        beside_untouched: before == UNTOUCHED && after == UNTOUCHED,
    }
}

/// The root as a caller takes it, for measuring: the answer's place after the call.
#[inline]
pub fn root(x: f64) -> f64 {
    let mut answer = 0.0;
    unsafe { pk_root(x, &mut answer) };
    answer
}

/// What stands in the places of mates before a call: the column of no row, and no sign that a row is alone.
const NO_MATE: u64 = 0x5AFE_5AFE_5AFE_5AFE;

/// What a row that is left alone has for its column.
const ALONE: u64 = u64::MAX;

/// Places that are lent behind those of the rows, and places behind those that are lent.
const LENT_MORE: usize = 2;
const NOT_LENT: usize = 2;

/// The assignment, with all that can be seen of the call.
pub fn assignment_reply(table: &Table) -> AssignmentReply {
    let (number, places) = mates(table, table.rows + LENT_MORE);
    let (rows, rest) = places.split_at(table.rows);
    let untouched = |places: &[u64]| places.iter().all(|place| *place == NO_MATE);
    let given = match number {
        0 => Ok(listed(rows, table.columns)),
        _ => Err(number),
    };
    let rest_untouched = untouched(rest) && (number == 0 || untouched(rows));
    let short = table.rows.checked_sub(1).and_then(|room| {
        let (number, places) = mates(table, room);
        untouched(&places).then_some(number)
    });
    AssignmentReply {
        given,
        rest_untouched,
        short,
    }
}

/// The call with so many places lent: its answer, and the places with those behind them.
fn mates(table: &Table, room: usize) -> (u32, Vec<u64>) {
    let mut places = vec![NO_MATE; room + NOT_LENT];
    let number = paired(table, &mut places[..room]);
    (number, places)
}

/// The call itself, with these places lent.
#[inline]
fn paired(table: &Table, mates: &mut [u64]) -> u32 {
    unsafe {
        pk_linear_assignment(
            table.costs.as_ptr(),
            table.costs.len(),
            table.rows,
            table.columns,
            table.row_cost,
            table.column_cost,
            mates.as_mut_ptr(),
            mates.len(),
        )
    }
}

/// The pairs and the rows and columns that are left, from each row's column.
fn listed(mates: &[u64], columns: usize) -> Assignment {
    let rows = || mates.iter().copied().enumerate();
    let paired = rows().filter(|(_, column)| *column != ALONE);
    let alone = rows().filter(|(_, column)| *column == ALONE);
    Assignment {
        pairs: paired.map(|(row, column)| (row, column as usize)).collect(),
        unmatched_rows: alone.map(|(row, _)| row).collect(),
        unmatched_columns: (0..columns)
            .filter(|column| !mates.contains(&(*column as u64)))
            .collect(),
    }
}

/// The assignment as a caller takes it, for measuring: whether it was given, and the places after the call.
#[inline]
pub fn assignment(table: &Table, mates: &mut [u64; 64]) -> bool {
    paired(table, mates) == 0
}
