//! Every entry against the specification's formula, worked out one exact operation at a time, each rounded once.

use exact::{add, div, mul, root, sub};
use inputs::{roots, Random};

use super::bits;
use crate::{Cholesky, SMatrix, SVector};

/// Numbers of a few whole digits now and then, so that ties, zeros and exact sums occur; else of any digits.
fn entry(random: &mut Random) -> f64 {
    let sign = random.below(2) << 63;
    let magnitude = match random.below(4) {
        0 => (random.below(9) as f64).to_bits(),
        _ => roots::everyday(random) & !(0x7FF << 52) | (1023 - 3 + random.below(6)) << 52,
    };
    f64::from_bits(sign | magnitude)
}

fn random_matrix<const R: usize, const C: usize>(random: &mut Random) -> SMatrix<f64, R, C> {
    let mut m = SMatrix::zeros();
    for row in &mut m.rows {
        for x in row {
            *x = entry(random);
        }
    }
    m
}

/// A matrix with a large diagonal, so that most of them have a decomposition.
fn random_covariance<const N: usize>(random: &mut Random) -> SMatrix<f64, N, N> {
    let mut m = random_matrix::<N, N>(random);
    for i in 0..N {
        m.rows[i][i] = 3.0 * N as f64 + entry(random);
        for j in 0..i {
            m.rows[i][j] /= 2.0;
        }
    }
    m
}

/// The terms summed from the first to the last.
fn summed(terms: impl Iterator<Item = f64>) -> Option<f64> {
    terms.reduce(add)
}

fn product_entry<const R: usize, const K: usize, const C: usize>(
    a: &SMatrix<f64, R, K>,
    b: &SMatrix<f64, K, C>,
    (i, j): (usize, usize),
) -> f64 {
    summed((0..K).map(|k| mul(a[(i, k)], b[(k, j)]))).expect("a term")
}

fn products<const R: usize, const K: usize, const C: usize>(seed: u64) {
    let mut random = Random::new(seed);
    for _ in 0..40 {
        let (a, b) = (
            random_matrix::<R, K>(&mut random),
            random_matrix::<K, C>(&mut random),
        );
        let m = a * b;
        for place in (0..R).flat_map(|i| (0..C).map(move |j| (i, j))) {
            assert_eq!(
                m[place].to_bits(),
                product_entry(&a, &b, place).to_bits(),
                "{place:?}"
            );
        }
    }
}

#[test]
fn products_of_the_filter() {
    products::<6, 6, 6>(1);
    products::<6, 6, 1>(2);
    products::<3, 6, 6>(3);
    products::<3, 6, 3>(4);
    products::<6, 3, 6>(5);
    products::<2, 6, 2>(6);
    products::<6, 2, 1>(7);
}

#[test]
fn dots_and_norms() {
    let mut random = Random::new(8);
    for _ in 0..200 {
        let (a, b) = (
            random_matrix::<3, 1>(&mut random),
            random_matrix::<3, 1>(&mut random),
        );
        assert_eq!(
            a.dot(&b).to_bits(),
            product_entry(&a.transpose(), &b, (0, 0)).to_bits()
        );
        let square = product_entry(&a.transpose(), &a, (0, 0));
        let norm = if square == 0.0 { 0.0 } else { root(square) };
        assert_eq!(a.norm().to_bits(), norm.to_bits());
    }
}

/// The lower factor: each entry less the earlier columns' products in order, then divided by the pivot's root.
fn factor<const N: usize>(a: &SMatrix<f64, N, N>) -> Option<SMatrix<f64, N, N>> {
    let mut l = SMatrix::zeros();
    for j in 0..N {
        let less_earlier = |l: &SMatrix<f64, N, N>, i: usize| {
            (0..j).fold(a[(i, j)], |x, k| sub(x, mul(l[(i, k)], l[(j, k)])))
        };
        let pivot = less_earlier(&l, j);
        if pivot <= 0.0 {
            return None;
        }
        l[(j, j)] = root(pivot);
        for i in j + 1..N {
            l[(i, j)] = div(less_earlier(&l, i), l[(j, j)]);
        }
    }
    Some(l)
}

/// Forward: the terms subtracted one by one. Backward: summed, then subtracted once.
fn solution<const N: usize>(l: &SMatrix<f64, N, N>, b: &SVector<f64, N>) -> SVector<f64, N> {
    let mut y = SVector::zeros();
    for i in 0..N {
        y[i] = div(
            (0..i).fold(b[i], |x, k| sub(x, mul(l[(i, k)], y[k]))),
            l[(i, i)],
        );
    }
    let mut x = y;
    for i in (0..N).rev() {
        let inner = summed((i + 1..N).map(|k| mul(l[(k, i)], x[k])));
        x[i] = div(inner.map_or(y[i], |sum| sub(y[i], sum)), l[(i, i)]);
    }
    x
}

fn decompositions<const N: usize, const M: usize>(seed: u64) {
    let mut random = Random::new(seed);
    let mut decomposed = 0;
    for _ in 0..60 {
        let a = random_covariance::<N>(&mut random);
        let (expected, given) = (factor(&a), a.cholesky());
        assert_eq!(expected.is_some(), given.is_some());
        if let (Some(l), Some(cholesky)) = (expected, given) {
            decomposed += 1;
            for place in lower_places::<N>() {
                assert_eq!(
                    cholesky.lower[place].to_bits(),
                    l[place].to_bits(),
                    "{place:?}"
                );
            }
            solves(&l, &cholesky, &random_matrix::<N, M>(&mut random));
        }
    }
    assert!(decomposed > 30, "{decomposed}");
}

fn solves<const N: usize, const M: usize>(
    l: &SMatrix<f64, N, N>,
    cholesky: &Cholesky<N>,
    b: &SMatrix<f64, N, M>,
) {
    let x = cholesky.solve(b);
    for column in 0..M {
        let unit = |m: &SMatrix<f64, N, M>| m.transpose().rows[column].map(|x| [x]);
        let expected = solution(l, &SMatrix { rows: unit(b) });
        assert_eq!(bits(&SMatrix { rows: unit(&x) }), bits(&expected));
    }
}

#[test]
fn decompositions_of_the_filter() {
    decompositions::<2, 6>(11);
    decompositions::<3, 6>(12);
    decompositions::<3, 1>(13);
    decompositions::<6, 1>(14);
}

/// A lower triangle of small whole numbers, with powers of two on the diagonal.
fn whole_factor(random: &mut Random) -> SMatrix<f64, 6, 6> {
    let mut l = SMatrix::zeros();
    for i in 0..6 {
        for j in 0..i {
            l[(i, j)] = random.below(17) as f64 - 8.0;
        }
        l[(i, i)] = [0.5, 1.0, 2.0][random.below(3) as usize];
    }
    l
}

/// Every sum, product, quotient and root is a binary64 number here, so nothing is rounded at all: what the stand-in
/// gives is the true answer.
#[test]
fn exact_where_every_operation_is() {
    let mut random = Random::new(15);
    for _ in 0..200 {
        let l = whole_factor(&mut random);
        let mut x = SVector::<f64, 6>::zeros();
        (0..6).for_each(|i| x[i] = random.below(33) as f64 - 16.0);
        let a = l * l.transpose();
        let cholesky = a.cholesky().expect("positive definite");
        for place in lower_places::<6>() {
            assert_eq!(cholesky.lower[place], l[place], "{place:?}");
        }
        assert_eq!(cholesky.solve(&(a * x)), x);
    }
}

/// The places on and below the diagonal.
fn lower_places<const N: usize>() -> impl Iterator<Item = (usize, usize)> {
    (0..N).flat_map(|i| (0..=i).map(move |j| (i, j)))
}
