//! Covariances for random cases: most of them good, some at the edge of a check, some past it.

use inputs::Random;

use crate::floats;

pub type Rows<const N: usize> = [[f64; N]; N];

pub fn covariance<const N: usize>(random: &mut Random) -> Rows<N> {
    let mut m = match random.below(3) {
        0 => diagonal(random),
        _ => correlated(random),
    };
    match random.below(24) {
        0 => lean(random, &mut m),
        1 => spoil(random, &mut m),
        2 => scale(&mut m, 2.0_f64.powi(random.below(1000) as i32 - 500)),
        3 => scale(&mut m, -0.0),
        4 => m
            .as_flattened_mut()
            .iter_mut()
            .filter(|x| **x == 0.0)
            .for_each(|x| *x = -0.0),
        _ => (),
    }
    m
}

fn diagonal<const N: usize>(random: &mut Random) -> Rows<N> {
    let mut m = [[0.0; N]; N];
    for (i, row) in m.iter_mut().enumerate() {
        row[i] = match random.below(4) {
            0 => 1.0 + random.below(4) as f64,
            _ => floats::positive(random, 6),
        };
    }
    m
}

/// A factor times its transpose, and a little more on the diagonal: positive definite, sometimes just so.
fn correlated<const N: usize>(random: &mut Random) -> Rows<N> {
    let factor: Rows<N> =
        std::array::from_fn(|_| std::array::from_fn(|_| floats::within(random, 1.0)));
    let more = [0.0, 1e-12, 0.01, 1.0][random.below(4) as usize];
    let mut m = [[0.0; N]; N];
    for i in 0..N {
        for j in 0..=i {
            let sum: f64 = (0..N).map(|k| factor[i][k] * factor[j][k]).sum();
            m[i][j] = if i == j { sum + more } else { sum };
            m[j][i] = m[i][j];
        }
    }
    m
}

/// Two entries that differ by about the tolerance of the symmetric test.
fn lean<const N: usize>(random: &mut Random, m: &mut Rows<N>) {
    let (i, j) = (
        random.below(N as u64) as usize,
        random.below(N as u64) as usize,
    );
    let largest = m
        .as_flattened()
        .iter()
        .fold(0.0_f64, |largest, x| largest.max(x.abs()));
    let tolerance = 1e-12 + 1e-9 * largest;
    m[i][j] = m[j][i] + tolerance * [0.5, 1.0, 1.0 + f64::EPSILON, 2.0][random.below(4) as usize];
}

fn spoil<const N: usize>(random: &mut Random, m: &mut Rows<N>) {
    let (i, j) = (
        random.below(N as u64) as usize,
        random.below(N as u64) as usize,
    );
    match random.below(3) {
        0 => m[i][j] = floats::edge(random),
        1 => m[i][i] = -m[i][i],
        _ => m[i][i] = 0.0,
    }
}

fn scale<const N: usize>(m: &mut Rows<N>, factor: f64) {
    m.as_flattened_mut().iter_mut().for_each(|x| *x *= factor);
}
