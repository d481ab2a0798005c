//! A stand-in for nalgebra: only what the Rust tracker uses, with every sum taken from its first term to its
//! last, every operation rounded once and none fused. This order is the specification's.

mod arithmetic;
mod cholesky;
mod matrix;

pub use cholesky::Cholesky;
pub use matrix::{SMatrix, XY, XYZ};

/// A size known to the compiler.
pub struct Const<const N: usize>;

/// A size that has a name as a type. Every [`Const`] has.
pub trait DimName {}

impl<const N: usize> DimName for Const<N> {}

pub type SVector<T, const N: usize> = SMatrix<T, N, 1>;

pub type Matrix2<T> = SMatrix<T, 2, 2>;
pub type Matrix3<T> = SMatrix<T, 3, 3>;
pub type Matrix4<T> = SMatrix<T, 4, 4>;

pub type Vector2<T> = SVector<T, 2>;
pub type Vector3<T> = SVector<T, 3>;
pub type Vector4<T> = SVector<T, 4>;

#[cfg(test)]
mod tests;
