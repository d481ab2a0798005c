//! The filter's calls beside the Rust's: the same tracks, each with the same position and velocity measured of it.

use std::hint::black_box;

use factor_tracker_core::filter::KalmanFilter;
use factor_tracker_core::judge::filter::{matrix, vector};
use factor_tracker_core::math::models::{cv_f6, cv_q6, measurement_h3};
use inputs::Random;
use nalgebra::{Matrix2, SMatrix, SVector};
use ours::probe::{Expected, Filter, Position};

use crate::measure::Row;

/// Tracks, and passes over them in a run.
const TRACKS: usize = 64;
const PASSES: usize = 32;
const CALLS: u64 = (TRACKS * PASSES) as u64;

/// Seconds between batches, the density and the velocity's deviation.
const DT: f64 = 0.1;
const DENSITY: f64 = 1.0;
const STD: f64 = 0.5;

type Covariance<const N: usize> = [[f64; N]; N];

/// A track and what is measured of it, as ours takes them and as the Rust does.
struct Track {
    ours: Filter,
    position: Position,
    velocity: [f64; 2],
    theirs: KalmanFilter<6, 3>,
    h: SMatrix<f64, 3, 6>,
    z: SVector<f64, 3>,
    r: SMatrix<f64, 3, 3>,
    v: SVector<f64, 2>,
}

/// A number from -1 up and below 1.
fn unit(random: &mut Random) -> f64 {
    (random.draw() >> 11) as f64 / (1_u64 << 52) as f64 - 1.0
}

/// A random factor times its transpose, and `more` on the diagonal.
fn covariance<const N: usize>(random: &mut Random, more: f64) -> Covariance<N> {
    let factor: Covariance<N> = std::array::from_fn(|_| std::array::from_fn(|_| unit(random)));
    let mut m = [[0.0; N]; N];
    for i in 0..N {
        for j in 0..=i {
            let sum: f64 = (0..N).map(|k| factor[i][k] * factor[j][k]).sum();
            m[i][j] = if i == j { sum + more } else { sum };
            m[j][i] = m[i][j];
        }
    }
    m
}

fn flat<const N: usize, const M: usize>(rows: Covariance<N>) -> [f64; M] {
    std::array::from_fn(|k| rows[k / N][k % N])
}

fn tracks() -> Vec<Track> {
    let mut random = Random::new(1);
    (0..TRACKS).map(|_| track(&mut random)).collect()
}

fn track(random: &mut Random) -> Track {
    let state: [f64; 6] = std::array::from_fn(|_| unit(random));
    let z: [f64; 3] = std::array::from_fn(|i| state[i] + unit(random));
    let velocity: [f64; 2] = std::array::from_fn(|i| state[3 + i] + unit(random));
    let p: Covariance<6> = covariance(random, 0.5);
    let r: Covariance<3> = covariance(random, 0.25);
    Track {
        ours: Filter {
            state,
            covariance: flat(p),
        },
        position: Position { z, noise: flat(r) },
        velocity,
        theirs: KalmanFilter::new(vector(state), matrix(p)).expect("a covariance"),
        h: measurement_h3(),
        z: vector(z),
        r: matrix(r),
        v: vector(velocity),
    }
}

/// The velocity along x and y in a state.
fn velocity_h() -> SMatrix<f64, 2, 6> {
    let mut h = SMatrix::zeros();
    h[(0, 3)] = 1.0;
    h[(1, 4)] = 1.0;
    h
}

/// What each side does to a track, from the filter as it was.
macro_rules! change {
    ($row:ident $name:literal $theirs:literal $ours:expr, $rust:expr) => {
        pub struct $row {
            tracks: Vec<Track>,
        }

        impl Row for $row {
            const NAME: &'static str = $name;
            const THEIRS: &'static str = $theirs;

            fn new() -> Self {
                let tracks = tracks();
                for track in &tracks {
                    let (mut ours, mut theirs) = (track.ours.clone(), track.theirs.clone());
                    $ours(&mut ours, track);
                    $rust(&mut theirs, track);
                    assert_same(&ours, &theirs);
                }
                $row { tracks }
            }

            fn ours(&self) -> u64 {
                for track in (0..PASSES).flat_map(|_| &self.tracks) {
                    let mut filter = black_box(track).ours.clone();
                    $ours(&mut filter, track);
                    black_box(&filter);
                }
                CALLS
            }

            fn theirs(&self) -> u64 {
                for track in (0..PASSES).flat_map(|_| &self.tracks) {
                    let mut filter = black_box(track).theirs.clone();
                    $rust(&mut filter, track);
                    black_box(&filter);
                }
                CALLS
            }
        }
    };
}

/// Both sides did the same work, to the last bit.
fn assert_same(ours: &Filter, theirs: &KalmanFilter<6, 3>) {
    let ours = ours.state.iter().chain(&ours.covariance);
    let theirs = theirs.state().iter().chain(theirs.covariance().iter());
    assert!(ours.map(|x| x.to_bits()).eq(theirs.map(|x| x.to_bits())));
}

change!(Predict "filter, predict" "predict"
    |filter: &mut Filter, _: &Track| filter.predict(DT, DENSITY).expect("moved"),
    |filter: &mut KalmanFilter<6, 3>, _: &Track| {
        let dt = black_box(DT);
        filter.predict(&cv_f6(dt), &cv_q6(dt, DENSITY)).expect("moved")
    });

change!(UpdatePosition "filter, update by position" "update"
    |filter: &mut Filter, track: &Track| filter.update_position(&track.position).expect("updated"),
    |filter: &mut KalmanFilter<6, 3>, track: &Track| {
        filter.update(&track.z, &track.h, &track.r).expect("updated")
    });

change!(UpdateVelocity "filter, update by velocity" "update_with"
    |filter: &mut Filter, track: &Track| filter.update_velocity(&track.velocity, STD).expect("updated"),
    |filter: &mut KalmanFilter<6, 3>, track: &Track| {
        let std = black_box(STD);
        filter.update_with(&track.v, &velocity_h(), &(Matrix2::identity() * (std * std))).expect("updated")
    });

fn squared_mahalanobis(track: &Track, measured: &Track) -> f64 {
    let distance = track
        .theirs
        .squared_mahalanobis(&measured.z, &track.h, &measured.r);
    distance.expect("a distance")
}

/// Each track's own measurement, with all the work for each.
pub struct Distance {
    tracks: Vec<Track>,
}

impl Distance {
    fn of_ours(track: &Track) -> f64 {
        let distance = track.ours.squared_mahalanobis(&track.position);
        distance.expect("a distance")
    }
}

impl Row for Distance {
    const NAME: &'static str = "filter, squared distance";
    const THEIRS: &'static str = "squared_mahalanobis";

    fn new() -> Self {
        let tracks = tracks();
        for track in &tracks {
            assert_eq!(
                Self::of_ours(track).to_bits(),
                squared_mahalanobis(track, track).to_bits()
            );
        }
        Distance { tracks }
    }

    fn ours(&self) -> u64 {
        for track in (0..PASSES).flat_map(|_| &self.tracks) {
            black_box(Self::of_ours(black_box(track)));
        }
        CALLS
    }

    fn theirs(&self) -> u64 {
        for track in (0..PASSES).flat_map(|_| &self.tracks) {
            black_box(squared_mahalanobis(black_box(track), track));
        }
        CALLS
    }
}

/// Each track with each measurement, as a batch has them: what is the track's own is done once for it, where the Rust does it
/// for each pair.
pub struct Pairs {
    tracks: Vec<Track>,
}

impl Pairs {
    fn of_ours(expected: &Expected, measured: &Track) -> f64 {
        let distance = expected.distance(&measured.position);
        distance.expect("a distance")
    }
}

impl Row for Pairs {
    const NAME: &'static str = "filter, distance per pair";
    const THEIRS: &'static str = "squared_mahalanobis";

    fn new() -> Self {
        let tracks = tracks();
        for track in &tracks {
            let expected = track.ours.expected_position();
            for measured in &tracks {
                assert_eq!(
                    Self::of_ours(&expected, measured).to_bits(),
                    squared_mahalanobis(track, measured).to_bits()
                );
            }
        }
        Pairs { tracks }
    }

    fn ours(&self) -> u64 {
        for track in &self.tracks {
            let expected = black_box(track).ours.expected_position();
            for measured in &self.tracks {
                black_box(Self::of_ours(black_box(&expected), measured));
            }
        }
        (TRACKS * TRACKS) as u64
    }

    fn theirs(&self) -> u64 {
        for track in &self.tracks {
            for measured in &self.tracks {
                black_box(squared_mahalanobis(black_box(track), measured));
            }
        }
        (TRACKS * TRACKS) as u64
    }
}
