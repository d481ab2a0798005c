//! The stand-in against values worked by hand, and entry by entry against the specification's formulas over exact
//! single operations.

mod by_hand;
mod orders;

use crate::SMatrix;

fn bits<const R: usize, const C: usize>(m: &SMatrix<f64, R, C>) -> Vec<u64> {
    m.iter().map(|x| x.to_bits()).collect()
}

fn matrix<const R: usize, const C: usize>(rows: [[f64; C]; R]) -> SMatrix<f64, R, C> {
    SMatrix { rows }
}
