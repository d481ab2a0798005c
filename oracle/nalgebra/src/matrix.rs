//! The matrix itself: rows of numbers, how it is made, read and shown.

use std::fmt;
use std::ops::{Deref, Index, IndexMut};

/// `R` rows of `C` numbers.
#[derive(Clone, Copy, PartialEq)]
#[repr(C)]
pub struct SMatrix<T, const R: usize, const C: usize> {
    pub(crate) rows: [[T; C]; R],
}

impl<const R: usize, const C: usize> SMatrix<f64, R, C> {
    pub fn zeros() -> Self {
        SMatrix {
            rows: [[0.0; C]; R],
        }
    }

    /// One on the diagonal, plus zero elsewhere.
    pub fn identity() -> Self {
        let mut m = Self::zeros();
        for i in 0..R.min(C) {
            m.rows[i][i] = 1.0;
        }
        m
    }

    pub fn transpose(&self) -> SMatrix<f64, C, R> {
        let mut t = SMatrix::zeros();
        for (i, row) in self.rows.iter().enumerate() {
            for (j, x) in row.iter().enumerate() {
                t.rows[j][i] = *x;
            }
        }
        t
    }

    pub fn iter(&self) -> impl Iterator<Item = &f64> {
        self.rows.iter().flatten()
    }

    /// The `K` rows from `first` on. A copy, where nalgebra lends a view.
    pub fn fixed_rows<const K: usize>(&self, first: usize) -> SMatrix<f64, K, C> {
        let mut part = SMatrix::zeros();
        part.rows.copy_from_slice(&self.rows[first..first + K]);
        part
    }

    pub fn into_owned(self) -> Self {
        self
    }
}

impl SMatrix<f64, 2, 1> {
    pub fn new(x: f64, y: f64) -> Self {
        SMatrix { rows: [[x], [y]] }
    }
}

impl SMatrix<f64, 3, 1> {
    pub fn new(x: f64, y: f64, z: f64) -> Self {
        SMatrix {
            rows: [[x], [y], [z]],
        }
    }
}

impl SMatrix<f64, 4, 1> {
    pub fn new(x: f64, y: f64, z: f64, w: f64) -> Self {
        SMatrix {
            rows: [[x], [y], [z], [w]],
        }
    }
}

impl<const R: usize, const C: usize> Index<(usize, usize)> for SMatrix<f64, R, C> {
    type Output = f64;

    fn index(&self, (row, column): (usize, usize)) -> &f64 {
        &self.rows[row][column]
    }
}

impl<const R: usize, const C: usize> IndexMut<(usize, usize)> for SMatrix<f64, R, C> {
    fn index_mut(&mut self, (row, column): (usize, usize)) -> &mut f64 {
        &mut self.rows[row][column]
    }
}

impl<const N: usize> Index<usize> for SMatrix<f64, N, 1> {
    type Output = f64;

    fn index(&self, row: usize) -> &f64 {
        &self.rows[row][0]
    }
}

impl<const N: usize> IndexMut<usize> for SMatrix<f64, N, 1> {
    fn index_mut(&mut self, row: usize) -> &mut f64 {
        &mut self.rows[row][0]
    }
}

/// Shown as the bits of each number, row by row, so that two texts are equal exactly where the bits are.
impl<const R: usize, const C: usize> fmt::Debug for SMatrix<f64, R, C> {
    fn fmt(&self, f: &mut fmt::Formatter<'_>) -> fmt::Result {
        f.write_str("[")?;
        for (i, row) in self.rows.iter().enumerate() {
            for (j, x) in row.iter().enumerate() {
                let before = match (i, j) {
                    (0, 0) => "",
                    (_, 0) => "; ",
                    _ => ", ",
                };
                write!(f, "{before}{:016X}", x.to_bits())?;
            }
        }
        f.write_str("]")
    }
}

/// The named parts of a vector of two.
#[repr(C)]
pub struct XY {
    pub x: f64,
    pub y: f64,
}

/// The named parts of a vector of three.
#[repr(C)]
pub struct XYZ {
    pub x: f64,
    pub y: f64,
    pub z: f64,
}

impl Deref for SMatrix<f64, 2, 1> {
    type Target = XY;

    fn deref(&self) -> &XY {
        // Both are two f64, one after the other.
        unsafe { &*(self as *const Self as *const XY) }
    }
}

impl Deref for SMatrix<f64, 3, 1> {
    type Target = XYZ;

    fn deref(&self) -> &XYZ {
        // Both are three f64, one after the other.
        unsafe { &*(self as *const Self as *const XYZ) }
    }
}
