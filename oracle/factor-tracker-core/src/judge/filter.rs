//! The Kalman filter of a track, over plain rows of numbers.

use nalgebra::{Const, DimName, Matrix2, SMatrix, SVector};

use super::refusal;
use crate::error::TrackerError;
use crate::filter::KalmanFilter;
use crate::math::linalg;
use crate::math::models::{cv_f6, cv_q6, measurement_h3};

pub type Rows<const R: usize, const C: usize> = [[f64; C]; R];

#[derive(Clone)]
pub struct Filter {
    rust: KalmanFilter<6, 3>,
}

impl Filter {
    pub fn new(state: [f64; 6], covariance: Rows<6, 6>) -> Result<Self, u32> {
        let rust = KalmanFilter::new(vector(state), matrix(covariance)).map_err(number)?;
        Ok(Filter { rust })
    }

    /// Moves the track by `dt` seconds under an acceleration of density `q`.
    pub fn predict(&mut self, dt: f64, q: f64) -> Result<(), u32> {
        let (f, noise) = (cv_f6(dt), cv_q6(dt, q));
        self.rust.predict(&f, &noise).map_err(number)
    }

    pub fn update_position(&mut self, z: [f64; 3], r: Rows<3, 3>) -> Result<(), u32> {
        let (z, h, r) = (vector(z), measurement_h3(), matrix(r));
        self.rust.update(&z, &h, &r).map_err(number)
    }

    /// The update that the tracker makes with a velocity measured with the deviation `std`.
    pub fn update_velocity(&mut self, z: [f64; 2], std: f64) -> Result<(), u32> {
        let mut h = SMatrix::<f64, 2, 6>::zeros();
        h[(0, 3)] = 1.0;
        h[(1, 4)] = 1.0;
        let r = Matrix2::identity() * (std * std);
        self.rust.update_with(&vector(z), &h, &r).map_err(number)
    }

    /// The Rust leaves the sign of a zero open; the specification makes all that is not above zero +0.
    pub fn squared_distance(&self, z: [f64; 3], r: Rows<3, 3>) -> Result<f64, u32> {
        let (z, h, r) = (vector(z), measurement_h3(), matrix(r));
        let distance = self.rust.squared_mahalanobis(&z, &h, &r).map_err(number)?;
        Ok(if distance > 0.0 { distance } else { 0.0 })
    }

    pub fn state(&self) -> [f64; 6] {
        rows(self.rust.state()).map(|[x]| x)
    }

    pub fn covariance(&self) -> Rows<6, 6> {
        rows(self.rust.covariance())
    }
}

/// The checks of a covariance: finite, symmetric, Cholesky.
pub fn validate_covariance<const N: usize>(m: Rows<N, N>) -> Result<(), u32>
where
    Const<N>: DimName,
{
    linalg::validate_covariance(&matrix(m), "covariance").map_err(number)
}

fn number(error: TrackerError) -> u32 {
    refusal::of(&error)
}

/// Rows as a matrix of the Rust's.
pub fn matrix<const R: usize, const C: usize>(rows: Rows<R, C>) -> SMatrix<f64, R, C> {
    let mut m = SMatrix::zeros();
    for (i, row) in rows.iter().enumerate() {
        for (j, x) in row.iter().enumerate() {
            m[(i, j)] = *x;
        }
    }
    m
}

pub fn vector<const N: usize>(items: [f64; N]) -> SVector<f64, N> {
    matrix(items.map(|x| [x]))
}

fn rows<const R: usize, const C: usize>(m: &SMatrix<f64, R, C>) -> Rows<R, C> {
    std::array::from_fn(|i| std::array::from_fn(|j| m[(i, j)]))
}
