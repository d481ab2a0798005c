//! The Cholesky decomposition and the two solves over it.

use crate::matrix::SMatrix;

/// The lower factor `L` with `L Lᵀ` the matrix decomposed. What stands above the diagonal is never read.
pub struct Cholesky<const N: usize> {
    pub(crate) lower: SMatrix<f64, N, N>,
}

impl<const N: usize> SMatrix<f64, N, N> {
    /// Reads the lower triangle, column by column: the earlier columns are subtracted in order, a pivot that is
    /// not greater than 0 (a NaN is not) fails, the entries below are divided by the pivot's root.
    pub fn cholesky(self) -> Option<Cholesky<N>> {
        let mut l = self.rows;
        for j in 0..N {
            for k in 0..j {
                for i in j..N {
                    l[i][j] -= l[i][k] * l[j][k];
                }
            }
            let pivot = l[j][j];
            if pivot.is_nan() || pivot <= 0.0 {
                return None;
            }
            let root = pivot.sqrt();
            l[j][j] = root;
            for row in &mut l[j + 1..] {
                row[j] /= root;
            }
        }
        Some(Cholesky {
            lower: SMatrix { rows: l },
        })
    }
}

impl<const N: usize> Cholesky<N> {
    /// `X` with `L Lᵀ X = b`, column by column.
    pub fn solve<const M: usize>(&self, b: &SMatrix<f64, N, M>) -> SMatrix<f64, N, M> {
        let mut x = *b;
        for column in 0..M {
            self.forward(&mut x, column);
            self.backward(&mut x, column);
        }
        x
    }

    /// `L y = b`: the terms are subtracted one by one.
    pub(crate) fn forward<const M: usize>(&self, b: &mut SMatrix<f64, N, M>, column: usize) {
        let l = &self.lower.rows;
        for i in 0..N {
            let mut y = b.rows[i][column];
            for k in 0..i {
                y -= l[i][k] * b.rows[k][column];
            }
            b.rows[i][column] = y / l[i][i];
        }
    }

    /// `Lᵀ x = y`: the terms are summed first and subtracted once. The last row has none, and subtracts nothing.
    pub(crate) fn backward<const M: usize>(&self, y: &mut SMatrix<f64, N, M>, column: usize) {
        let l = &self.lower.rows;
        for i in (0..N).rev() {
            if i + 1 < N {
                let mut sum = l[i + 1][i] * y.rows[i + 1][column];
                for k in i + 2..N {
                    sum += l[k][i] * y.rows[k][column];
                }
                y.rows[i][column] -= sum;
            }
            y.rows[i][column] /= l[i][i];
        }
    }
}
