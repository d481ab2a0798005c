//! Sums, differences, products and the norm. Each entry of a product begins with its first term, not with zero.

use std::ops::{Add, Mul, Sub};

use crate::matrix::SMatrix;

fn product<const R: usize, const K: usize, const C: usize>(
    a: &SMatrix<f64, R, K>,
    b: &SMatrix<f64, K, C>,
) -> SMatrix<f64, R, C> {
    let mut m = SMatrix::zeros();
    for i in 0..R {
        for j in 0..C {
            m.rows[i][j] = a.rows[i][0] * b.rows[0][j];
        }
        for k in 1..K {
            for j in 0..C {
                m.rows[i][j] += a.rows[i][k] * b.rows[k][j];
            }
        }
    }
    m
}

fn entrywise<const R: usize, const C: usize>(
    a: &SMatrix<f64, R, C>,
    b: &SMatrix<f64, R, C>,
    operation: impl Fn(f64, f64) -> f64,
) -> SMatrix<f64, R, C> {
    let mut m = SMatrix::zeros();
    for i in 0..R {
        for j in 0..C {
            m.rows[i][j] = operation(a.rows[i][j], b.rows[i][j]);
        }
    }
    m
}

fn scaled<const R: usize, const C: usize>(
    factor: f64,
    a: &SMatrix<f64, R, C>,
) -> SMatrix<f64, R, C> {
    let mut m = SMatrix::zeros();
    for i in 0..R {
        for j in 0..C {
            m.rows[i][j] = factor * a.rows[i][j];
        }
    }
    m
}

impl<const N: usize> SMatrix<f64, N, 1> {
    /// Products summed from the first to the last.
    pub fn dot(&self, other: &Self) -> f64 {
        let mut sum = self.rows[0][0] * other.rows[0][0];
        for k in 1..N {
            sum += self.rows[k][0] * other.rows[k][0];
        }
        sum
    }

    /// The root of the squares, summed from the first to the last.
    pub fn norm(&self) -> f64 {
        self.dot(self).sqrt()
    }
}

// An operator for the forms that the Rust writes: each side by value or borrowed.
macro_rules! operator {
    ($trait:ident, $method:ident, $left:ty, $right:ty) => {
        impl<const R: usize, const C: usize> $trait<$right> for $left {
            type Output = SMatrix<f64, R, C>;

            fn $method(self, other: $right) -> SMatrix<f64, R, C> {
                entrywise(&self, &other, f64::$method)
            }
        }
    };
}

operator!(Add, add, SMatrix<f64, R, C>, SMatrix<f64, R, C>);
operator!(Add, add, &SMatrix<f64, R, C>, SMatrix<f64, R, C>);
operator!(Add, add, SMatrix<f64, R, C>, &SMatrix<f64, R, C>);
operator!(Sub, sub, SMatrix<f64, R, C>, SMatrix<f64, R, C>);
operator!(Sub, sub, &SMatrix<f64, R, C>, SMatrix<f64, R, C>);

macro_rules! matrix_product {
    ($left:ty, $right:ty) => {
        impl<const R: usize, const K: usize, const C: usize> Mul<$right> for $left {
            type Output = SMatrix<f64, R, C>;

            fn mul(self, other: $right) -> SMatrix<f64, R, C> {
                product(&self, &other)
            }
        }
    };
}

matrix_product!(SMatrix<f64, R, K>, SMatrix<f64, K, C>);
matrix_product!(&SMatrix<f64, R, K>, SMatrix<f64, K, C>);
matrix_product!(SMatrix<f64, R, K>, &SMatrix<f64, K, C>);

impl<const R: usize, const C: usize> Mul<f64> for SMatrix<f64, R, C> {
    type Output = SMatrix<f64, R, C>;

    fn mul(self, factor: f64) -> SMatrix<f64, R, C> {
        scaled(factor, &self)
    }
}

impl<const R: usize, const C: usize> Mul<SMatrix<f64, R, C>> for f64 {
    type Output = SMatrix<f64, R, C>;

    fn mul(self, m: SMatrix<f64, R, C>) -> SMatrix<f64, R, C> {
        scaled(self, &m)
    }
}
