//! Cases worked by hand. Several are chosen so that another order, an initial zero or a fused product gives other
//! bits.

use super::{bits, matrix};
use crate::{Matrix2, SMatrix, Vector2, Vector3};

/// x × x is 1 + 2⁻²⁹ + 2⁻⁶⁰, which rounds to 1 + 2⁻²⁹: a fused product would keep the 2⁻⁶⁰.
const X: f64 = 1.0 + 1.0 / (1 << 30) as f64;
const X_SQUARED: f64 = 1.0 + 1.0 / (1 << 29) as f64;

#[test]
fn product() {
    let m = matrix([[1.0, 2.0], [3.0, 4.0]]) * matrix([[5.0, 6.0], [7.0, 8.0]]);
    assert_eq!(m, matrix([[19.0, 22.0], [43.0, 50.0]]));
    let tall = matrix([[1.0], [2.0]]) * matrix([[3.0, 4.0, 5.0]]);
    assert_eq!(tall, matrix([[3.0, 4.0, 5.0], [6.0, 8.0, 10.0]]));
}

#[test]
fn product_sums_from_the_first_term() {
    let ones = matrix([[1.0], [1.0], [1.0]]);
    // 10¹⁶ swallows the 1 that is added to it, and not the one that comes after its own end.
    assert_eq!((matrix([[1e16, 1.0, -1e16]]) * ones)[0], 0.0);
    assert_eq!((matrix([[1e16, -1e16, 1.0]]) * ones)[0], 1.0);
}

#[test]
fn sums_have_no_initial_zero() {
    let zeros = matrix([[-0.0, -0.0]]) * matrix([[1.0], [1.0]]);
    assert_eq!(bits(&zeros), [(-0.0_f64).to_bits()]);
    let dot = Vector2::new(-0.0, -0.0).dot(&Vector2::new(1.0, 1.0));
    assert_eq!(dot.to_bits(), (-0.0_f64).to_bits());
}

#[test]
fn nothing_is_fused() {
    assert_eq!((matrix([[-X_SQUARED, X]]) * matrix([[1.0], [X]]))[0], 0.0);
    assert_eq!(Vector2::new(-X_SQUARED, X).dot(&Vector2::new(1.0, X)), 0.0);
    // The second pivot is x² rounded, less x² rounded: 0, which fails. Fused it would be below zero, or above.
    let pivot_zero = matrix([[1.0, X], [X, X_SQUARED]]);
    assert!(pivot_zero.cholesky().is_none());
    let pivot_above = matrix([[1.0, X], [X, X_SQUARED + f64::EPSILON]]);
    let lower = pivot_above.cholesky().expect("a pivot of 2⁻⁵²").lower;
    assert_eq!(lower[(1, 1)], 2.0_f64.powi(-26));
}

#[test]
fn sums_differences_and_scalars() {
    let (a, b) = (matrix([[1.0, -2.0]]), matrix([[0.5, 8.0]]));
    assert_eq!(a + b, matrix([[1.5, 6.0]]));
    assert_eq!(a - b, matrix([[0.5, -10.0]]));
    assert_eq!(0.5 * a, matrix([[0.5, -1.0]]));
    // The off-diagonals of a scaled identity are 0 × the factor.
    let scaled = Matrix2::identity() * f64::INFINITY;
    assert!(scaled[(0, 1)].is_nan() && scaled[(0, 0)].is_infinite());
    assert_eq!(bits(&(Matrix2::identity() * -3.0))[1], (-0.0_f64).to_bits());
}

#[test]
fn norm_sums_x_y_z() {
    assert_eq!(Vector3::new(2.0, 3.0, 6.0).norm(), 7.0);
    // The small squares lie just below 2⁻⁵³: each is lost beside the 1, and both together are not.
    let small = 2.0_f64.powi(-27) * 1.4;
    let (first, last) = (
        Vector3::new(1.0, small, small),
        Vector3::new(small, small, 1.0),
    );
    assert_eq!(first.dot(&first), 1.0);
    assert_eq!(last.dot(&last), 1.0 + f64::EPSILON);
    assert_eq!(Vector3::new(1e200, 0.0, 0.0).norm(), f64::INFINITY);
    assert_eq!(Vector3::new(1e-200, -1e-200, 0.0).norm().to_bits(), 0);
}

#[test]
fn cholesky() {
    // L is [2 0 0; 1 3 0; -2 4 5].
    let a = matrix([[4.0, 2.0, -4.0], [2.0, 10.0, 10.0], [-4.0, 10.0, 45.0]]);
    let lower = a.cholesky().expect("positive definite").lower;
    assert_eq!(lower[(0, 0)], 2.0);
    assert_eq!((lower[(1, 0)], lower[(1, 1)]), (1.0, 3.0));
    assert_eq!(
        (lower[(2, 0)], lower[(2, 1)], lower[(2, 2)]),
        (-2.0, 4.0, 5.0)
    );
}

#[test]
fn cholesky_reads_the_lower_triangle() {
    let a = matrix([[4.0, f64::NAN], [2.0, 10.0]]);
    let x = a
        .cholesky()
        .expect("positive definite")
        .solve(&Vector2::new(4.0, 20.0));
    assert_eq!(x, Vector2::new(0.0, 2.0));
}

#[test]
fn cholesky_fails_at_a_pivot_not_above_zero() {
    for pivot in [0.0, -0.0, -1.0, f64::NAN, f64::NEG_INFINITY] {
        assert!(matrix([[pivot]]).cholesky().is_none(), "{pivot}");
        assert!(
            matrix([[1.0, 0.0], [0.0, pivot]]).cholesky().is_none(),
            "{pivot}"
        );
    }
    for pivot in [f64::from_bits(1), f64::INFINITY] {
        assert!(matrix([[pivot]]).cholesky().is_some(), "{pivot}");
    }
}

#[test]
fn solve() {
    // L is [2 0 0; 1 3 0; -2 4 5]: forward gives (-9, 10, 20), backward the answer.
    let a = matrix([[4.0, 2.0, -4.0], [2.0, 10.0, 10.0], [-4.0, 10.0, 45.0]]);
    let cholesky = a.cholesky().expect("positive definite");
    let mut b = Vector3::new(-18.0, 21.0, 158.0);
    assert_eq!(cholesky.solve(&b), Vector3::new(0.5, -2.0, 4.0));
    cholesky.forward(&mut b, 0);
    assert_eq!(b, Vector3::new(-9.0, 10.0, 20.0));
}

#[test]
fn forward_subtracts_term_by_term() {
    // The last entry is 1 less 10¹⁶ less -10¹⁶: the 1 is swallowed. The sum first, 0, would leave it.
    let lower = matrix([[1.0, 0.0, 0.0], [0.0, 1.0, 0.0], [1.0, 1.0, 1.0]]);
    let factor = crate::Cholesky { lower };
    let mut b = Vector3::new(1e16, -1e16, 1.0);
    factor.forward(&mut b, 0);
    assert_eq!(b[2], 0.0);
}

#[test]
fn backward_sums_first() {
    // The first entry is 1 less the sum of 10¹⁶ and -10¹⁶: term by term the 1 would be swallowed.
    let lower = matrix([[1.0, 0.0, 0.0], [1.0, 1.0, 0.0], [1.0, 0.0, 1.0]]);
    let factor = crate::Cholesky { lower };
    let mut y = Vector3::new(1.0, 1e16, -1e16);
    factor.backward(&mut y, 0);
    assert_eq!(y[0], 1.0);
}

#[test]
fn backward_sum_has_no_initial_zero() {
    let solved = Matrix2::identity()
        .cholesky()
        .expect("positive definite")
        .solve(&Vector2::new(-0.0, -1.0));
    // -0 less the sum, 0 × -1 = -0, is +0. From an initial zero the sum were +0, and the answer -0.
    assert_eq!(bits(&solved), [0.0_f64.to_bits(), (-1.0_f64).to_bits()]);
}

#[test]
fn backward_takes_nothing_from_the_last_row() {
    let solved = matrix([[4.0]])
        .cholesky()
        .expect("positive definite")
        .solve(&matrix([[-0.0]]));
    assert_eq!(bits(&solved), [(-0.0_f64).to_bits()]);
}

#[test]
fn parts_and_text() {
    let v = Vector3::new(1.0, -0.0, 2.0);
    assert_eq!((v.x, v.y, v.z), (1.0, 0.0, 2.0));
    assert_eq!(
        (Vector2::new(3.0, 4.0).x, Vector2::new(3.0, 4.0).y),
        (3.0, 4.0)
    );
    assert_eq!(
        format!("{v:?}"),
        "[3FF0000000000000; 8000000000000000; 4000000000000000]"
    );
    let rows: SMatrix<f64, 2, 1> = v.fixed_rows::<2>(1).into_owned();
    assert_eq!(bits(&rows), bits(&Vector2::new(-0.0, 2.0)));
    let turned = matrix([[-0.0, 2.0]]).transpose();
    assert_eq!(bits(&turned), bits(&matrix([[-0.0], [2.0]])));
    let identity = SMatrix::<f64, 2, 2>::identity();
    assert_eq!(bits(&identity), bits(&matrix([[1.0, 0.0], [0.0, 1.0]])));
}
