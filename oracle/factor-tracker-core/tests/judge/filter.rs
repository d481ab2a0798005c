//! The filter: the specification's worked cases, its refusals in order, and its corners.

use factor_tracker_core::judge::filter::{validate_covariance, Filter, Rows};

fn diagonal<const N: usize>(items: [f64; N]) -> Rows<N, N> {
    let mut rows = [[0.0; N]; N];
    (0..N).for_each(|i| rows[i][i] = items[i]);
    rows
}

#[test]
fn one_axis() {
    // Variance 3, measured variance 1, innovation 2.
    let mut filter = Filter::new([0.0; 6], diagonal([3.0, 1.0, 1.0, 1.0, 1.0, 1.0])).unwrap();
    let (z, r) = ([2.0, 0.0, 0.0], diagonal([1.0; 3]));
    assert_eq!(filter.squared_distance(z, r), Ok(1.0));
    filter.update_position(z, r).unwrap();
    assert_eq!(filter.state()[0], 1.5);
    assert_eq!(filter.covariance()[0][0], 0.75);
}

#[test]
fn one_second_without_noise() {
    let mut filter = Filter::new([0.0, 0.0, 0.0, 1.0, -2.0, 0.5], diagonal([1.0; 6])).unwrap();
    filter.predict(1.0, 0.0).unwrap();
    assert_eq!(filter.state(), [1.0, -2.0, 0.5, 1.0, -2.0, 0.5]);
    assert_eq!(
        (filter.covariance()[0][0], filter.covariance()[0][3]),
        (2.0, 1.0)
    );
}

#[test]
fn noise_of_a_prediction() {
    let mut filter = Filter::new([0.0; 6], diagonal([1.0; 6])).unwrap();
    filter.predict(2.0, 3.0).unwrap();
    // 1 + 2 × 2 × 1 + 3 × 8 / 3, 2 × 1 + 3 × 4 / 2, 1 + 3 × 2.
    let p = filter.covariance();
    assert_eq!((p[1][1], p[1][4], p[4][4]), (13.0, 8.0, 7.0));
}

#[test]
fn velocity_update() {
    let mut filter = Filter::new([0.0; 6], diagonal([1.0, 1.0, 1.0, 3.0, 3.0, 3.0])).unwrap();
    filter.update_velocity([4.0, -4.0], 1.0).unwrap();
    assert_eq!(filter.state(), [0.0, 0.0, 0.0, 3.0, -3.0, 0.0]);
    assert_eq!(filter.covariance()[3][3], 0.75);
}

#[test]
fn covariance_checks_run_in_order() {
    let nan = f64::NAN;
    assert_eq!(validate_covariance([[nan, 1.0], [0.0, -1.0]]), Err(5));
    assert_eq!(validate_covariance([[1.0, 1.0], [0.0, -1.0]]), Err(6));
    assert_eq!(validate_covariance([[1.0, 0.0], [0.0, -1.0]]), Err(7));
    assert_eq!(validate_covariance([[1.0, 0.0], [0.0, 1.0]]), Ok(()));
    // The tolerance is 1e-12 + 1e-9 × the largest, and equality is taken.
    let tolerance = 1e-12 + 1e-9 * 2.0;
    let beside = |d: f64| validate_covariance([[2.0, d], [0.0, 2.0]]);
    assert_eq!(beside(tolerance), Ok(()));
    assert_eq!(beside(f64::from_bits(tolerance.to_bits() + 1)), Err(6));
    // A difference that overflows is not symmetric.
    assert_eq!(
        validate_covariance([[1.0, f64::MAX], [-f64::MAX, 1.0]]),
        Err(6)
    );
}

#[test]
fn new_refuses_a_state_first() {
    let mut state = [0.0; 6];
    state[5] = f64::INFINITY;
    assert_eq!(Filter::new(state, diagonal([-1.0; 6])).err(), Some(5));
    assert_eq!(Filter::new([0.0; 6], diagonal([0.0; 6])).err(), Some(7));
}

#[test]
fn predictions_refused() {
    let filter = Filter::new([0.0, 0.0, 0.0, 1e300, 0.0, 0.0], diagonal([1.0; 6])).unwrap();
    let mut next = filter.clone();
    assert_eq!(next.predict(1e103, 1.0), Err(5), "the noise overflows");
    assert_eq!(next.predict(1e9, 0.0), Err(9), "the place overflows");
    assert_eq!(next.state(), filter.state());
    assert_eq!(next.covariance(), filter.covariance());
}

#[test]
fn velocity_refused() {
    let mut filter = Filter::new([0.0; 6], diagonal([1.0; 6])).unwrap();
    assert_eq!(filter.update_velocity([0.0; 2], 1e200), Err(5));
    assert_eq!(filter.update_velocity([0.0; 2], 1e-200), Err(7));
}

#[test]
fn an_infinite_sum_of_covariances_is_at_distance_zero() {
    // 10³⁰⁸ is finite, and twice as much, halved again by the symmetric part, is not.
    let filter = Filter::new([1.0; 6], diagonal([4e307; 6])).unwrap();
    let distance = filter.squared_distance([0.0; 3], diagonal([6e307; 3]));
    assert_eq!(distance.map(f64::to_bits), Ok(0));
}
