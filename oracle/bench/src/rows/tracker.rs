//! The tracker's calls beside the Rust's, on a floor where people walk about.

use std::hint::black_box;
use std::marker::PhantomData;

use factor_tracker_core::tracker::{Cartesian3DTracker, Cartesian3DTrackerConfig};
use factor_tracker_core::types::{
    ClassLabel, ObservationBatch3D, Position3DObservation, SensorId, Timestamp, TrackId,
};
use inputs::Random;
use nalgebra::{Matrix3, Vector2, Vector3};
use ours::tracker::{PkBatch, PkSettings, PkTracker};

use crate::measure::Row;

/// A kind of floor.
pub trait Floor {
    const NAME: &'static str;
    /// As many tracks as there are once all have been seen.
    const TRACKS: usize;
    /// Metres between one person's place and the next.
    const PITCH: f64;
    const CASCADE: bool;
    const BIRTHS: bool;
    const VELOCITY: bool;
}

/// Batches before a run, in which the tracks are made, and batches in a run; one comes after the other by so many nanoseconds.
const BEFORE: usize = 20;
const BATCHES: usize = 16;
const STEP: i64 = 100_000_000;

/// Where births are, one person a batch is new and seen once: so many of the tracks are such ones.
const PASSING: usize = 6;

/// Where second boxes are, one after the other.
const BESIDE: [[f64; 2]; 4] = [[0.6, 0.0], [0.0, 0.6], [-0.6, 0.0], [0.0, -0.6]];

fn settings<F: Floor>() -> Cartesian3DTrackerConfig {
    let mut settings = Cartesian3DTrackerConfig::default();
    if F::CASCADE {
        settings.recent_track_window_ns = Some(3 * STEP);
    }
    if F::BIRTHS {
        settings.min_birth_distance_m = Some(0.8);
        settings.birth_persistence = Some(3);
    }
    if F::VELOCITY {
        settings.velocity_measurement_std = Some(0.5);
    }
    settings.common.tentative_timeout_ns = 5 * STEP;
    settings
}

struct Person {
    home: [f64; 2],
    offset: [f64; 2],
    velocity: [f64; 2],
}

/// A number within the limit on either side of zero.
fn within(random: &mut Random, limit: f64) -> f64 {
    limit * (2.0 * (random.draw() >> 11) as f64 / (1_u64 << 53) as f64 - 1.0)
}

impl Person {
    /// Walks on, and turns before coming near a neighbour.
    fn step(&mut self, pitch: f64) {
        for (x, v) in self.offset.iter_mut().zip(&mut self.velocity) {
            if (*x + *v * 0.1).abs() > 0.3 * pitch {
                *v = -*v;
            }
            *x += *v * 0.1;
        }
    }

    fn place(&self) -> [f64; 2] {
        [self.home[0] + self.offset[0], self.home[1] + self.offset[1]]
    }
}

fn seen(random: &mut Random, place: [f64; 2], velocity: [f64; 2]) -> Position3DObservation {
    let mut covariance = Matrix3::zeros();
    for (i, row) in [[0.04, 0.001, 0.0], [0.001, 0.04, 0.0], [0.0, 0.0, 0.09]]
        .iter()
        .enumerate()
    {
        for (j, x) in row.iter().enumerate() {
            covariance[(i, j)] = *x;
        }
    }
    Position3DObservation {
        position: Vector3::new(
            place[0] + within(random, 0.1),
            place[1] + within(random, 0.1),
            1.0,
        ),
        covariance,
        class_label: None,
        appearance: None,
        score: Some(0.9),
        velocity: Some(Vector2::new(velocity[0], velocity[1])),
    }
}

fn batches<F: Floor>() -> Vec<ObservationBatch3D> {
    let mut random = Random::new(1);
    let count = F::TRACKS - if F::BIRTHS { PASSING } else { 0 };
    let side = (count as f64).sqrt().ceil() as usize;
    let mut people: Vec<Person> = (0..count)
        .map(|k| Person {
            home: [(k % side) as f64 * F::PITCH, (k / side) as f64 * F::PITCH],
            offset: [0.0; 2],
            velocity: [within(&mut random, 0.5), within(&mut random, 0.5)],
        })
        .collect();
    let batch = |number: usize| {
        let mut observations = Vec::new();
        for person in &mut people {
            person.step(F::PITCH);
            observations.push(seen(&mut random, person.place(), person.velocity));
        }
        if F::BIRTHS && number > 4 {
            // All are confirmed by now. A second box beside the first person, at a place where the last candidate is forgotten, and somebody who is seen this once.
            let ([x, y], [a, b]) = (people[0].place(), BESIDE[number % BESIDE.len()]);
            observations.push(seen(&mut random, [x + a, y + b], [0.0; 2]));
            let place = [-10.0 - 10.0 * number as f64, -10.0];
            observations.push(seen(&mut random, place, [0.0; 2]));
        }
        ObservationBatch3D {
            sensor_id: SensorId::new(1),
            sequence: 1 + number as u64,
            timestamp: Timestamp::from_nanos(number as i64 * STEP),
            frame_id: "world".into(),
            observations,
        }
    };
    (0..BEFORE + BATCHES).map(batch).collect()
}

/// Both trackers after the first batches, and the batches of a run as each side takes them.
struct Trackers {
    ours: Box<PkTracker>,
    theirs: Cartesian3DTracker,
    our_batches: Vec<Box<PkBatch>>,
    their_batches: Vec<ObservationBatch3D>,
}

impl Trackers {
    fn new<F: Floor>() -> Self {
        let (settings, mut first) = (settings::<F>(), batches::<F>());
        let last = first.split_off(BEFORE);
        let mut ours = PkTracker::unmade();
        assert_eq!(ours.renew(PkSettings::of(&settings)), 0);
        let mut theirs = Cartesian3DTracker::new(settings).expect("good settings");
        for batch in &first {
            assert_eq!(ours.process_batch(&PkBatch::of(batch)).code, 0);
            theirs.process_batch_reported(batch).expect("a good batch");
        }
        let trackers = Trackers {
            our_batches: last.iter().map(PkBatch::of).collect(),
            their_batches: last,
            ours,
            theirs,
        };
        trackers.check(F::TRACKS);
        trackers
    }

    /// Every batch is accepted, and there are as many tracks as the row says.
    fn check(&self, tracks: usize) {
        let (mut ours, mut theirs) = (self.ours.clone(), self.theirs.clone());
        for (ours_of, theirs_of) in self.our_batches.iter().zip(&self.their_batches) {
            assert_eq!(ours.process_batch(ours_of).code, 0);
            theirs
                .process_batch_reported(theirs_of)
                .expect("a good batch");
            assert_eq!(ours.track_count, theirs.active_track_count());
            assert_eq!(ours.track_count, tracks);
        }
    }
}

/// The batches of a run, from the same tracker each time.
pub struct Batches<F> {
    trackers: Trackers,
    floor: PhantomData<F>,
}

impl<F: Floor> Row for Batches<F> {
    const NAME: &'static str = F::NAME;
    const THEIRS: &'static str = "process_batch_reported";

    fn new() -> Self {
        Batches {
            trackers: Trackers::new::<F>(),
            floor: PhantomData,
        }
    }

    fn ours(&self) -> u64 {
        let mut tracker = self.trackers.ours.clone();
        for batch in &self.trackers.our_batches {
            black_box(&tracker.process_batch(black_box(batch)));
        }
        BATCHES as u64
    }

    fn theirs(&self) -> u64 {
        let mut tracker = self.trackers.theirs.clone();
        for batch in &self.trackers.their_batches {
            let _ = black_box(tracker.process_batch_reported(black_box(batch)));
        }
        BATCHES as u64
    }
}

/// A call without a batch.
pub trait Step {
    const NAME: &'static str;
    const THEIRS: &'static str;
    type Floor: Floor;

    fn ours(tracker: &mut PkTracker, turn: usize);
    fn theirs(tracker: &mut Cartesian3DTracker, turn: usize);
}

pub struct Steps<S> {
    trackers: Trackers,
    step: PhantomData<S>,
}

impl<S: Step> Row for Steps<S> {
    const NAME: &'static str = S::NAME;
    const THEIRS: &'static str = S::THEIRS;

    fn new() -> Self {
        Steps {
            trackers: Trackers::new::<S::Floor>(),
            step: PhantomData,
        }
    }

    fn ours(&self) -> u64 {
        let mut tracker = self.trackers.ours.clone();
        (0..64).for_each(|turn| S::ours(&mut tracker, turn));
        64
    }

    fn theirs(&self) -> u64 {
        let mut tracker = self.trackers.theirs.clone();
        (0..64).for_each(|turn| S::theirs(&mut tracker, turn));
        64
    }
}

/// The time of the last batch before a run, and a little later each turn.
fn time(turn: usize) -> i64 {
    (BEFORE as i64 - 1) * STEP + 1_000_000 * (1 + turn as i64)
}

macro_rules! floors {
    ($($floor:ident $name:literal $tracks:literal $pitch:literal $cascade:literal $births:literal $velocity:literal;)*) => {$(
        pub struct $floor;

        impl Floor for $floor {
            const NAME: &'static str = $name;
            const TRACKS: usize = $tracks;
            const PITCH: f64 = $pitch;
            const CASCADE: bool = $cascade;
            const BIRTHS: bool = $births;
            const VELOCITY: bool = $velocity;
        }
    )*};
}

floors! {
    Spread5 "batch, 5 tracks" 5 3.0 false false false;
    Spread10 "batch, 10 tracks" 10 3.0 false false false;
    Spread20 "batch, 20 tracks" 20 3.0 false false false;
    Spread64 "batch, 64 tracks" 64 3.0 false false false;
    Grid64 "batch, 64 on a 1 m grid" 64 1.0 false false false;
    Cascade10 "batch, 10, cascade" 10 3.0 true false false;
    Cascade64 "batch, 64, cascade" 64 3.0 true false false;
    Births10 "batch, 10, births" 10 3.0 false true false;
    Births64 "batch, 64, births" 64 3.0 false true false;
    Velocity10 "batch, 10, velocity" 10 3.0 false false true;
    Velocity64 "batch, 64, velocity" 64 3.0 false false true;
    All10 "batch, 10, all three" 10 3.0 true true true;
    All64 "batch, 64, all three" 64 3.0 true true true;
    AllGrid64 "batch, 64 on a 1 m grid, all" 64 1.0 true true true;
}

macro_rules! steps {
    ($($step:ident $floor:ident $name:literal $theirs_name:literal $ours:expr, $theirs:expr;)*) => {$(
        pub struct $step;

        impl Step for $step {
            const NAME: &'static str = $name;
            const THEIRS: &'static str = $theirs_name;
            type Floor = $floor;

            fn ours(tracker: &mut PkTracker, turn: usize) {
                let call: fn(&mut PkTracker, usize) = $ours;
                call(tracker, turn)
            }

            fn theirs(tracker: &mut Cartesian3DTracker, turn: usize) {
                let call: fn(&mut Cartesian3DTracker, usize) = $theirs;
                call(tracker, turn)
            }
        }
    )*};
}

fn our_prediction(tracker: &mut PkTracker, turn: usize) {
    assert_eq!(tracker.predict_to(time(turn)), 0);
}

fn their_prediction(tracker: &mut Cartesian3DTracker, turn: usize) {
    let moved = tracker.predict_to(Timestamp::from_nanos(time(turn)));
    assert!(moved.is_ok());
}

fn our_prior(tracker: &mut PkTracker, turn: usize) {
    let track = 1 + turn % tracker.track_count;
    assert_eq!(tracker.set_class_prior(track as u64, 1, 0.5), 0);
}

fn their_prior(tracker: &mut Cartesian3DTracker, turn: usize) {
    let track = 1 + turn % tracker.active_track_count();
    let track = TrackId::new(track as u64);
    assert!(tracker.set_class_prior(track, ClassLabel::new(1), 0.5));
}

/// What a reader takes of each track: its number, its place and whether it is confirmed.
fn our_snapshots(tracker: &mut PkTracker, _: usize) {
    for track in &black_box(&*tracker).tracks[..tracker.track_count] {
        let place = [0, 1, 2].map(|i| f64::from_bits(track.filter.state[i]));
        black_box((track.id, place, track.lifecycle));
    }
}

fn their_snapshots(tracker: &mut Cartesian3DTracker, _: usize) {
    for shown in black_box(&*tracker).snapshots() {
        let place = [shown.position.x, shown.position.y, shown.position.z];
        black_box((shown.track_id, place, shown.lifecycle));
    }
}

steps! {
    Predict10 Spread10 "predict_to, 10 tracks" "predict_to" our_prediction, their_prediction;
    Predict64 Spread64 "predict_to, 64 tracks" "predict_to" our_prediction, their_prediction;
    Prior10 Spread10 "set_class_prior, 10 tracks" "set_class_prior" our_prior, their_prior;
    Prior64 Spread64 "set_class_prior, 64 tracks" "set_class_prior" our_prior, their_prior;
    Snapshots10 Spread10 "tracks read, 10" "snapshots" our_snapshots, their_snapshots;
    Snapshots64 Spread64 "tracks read, 64" "snapshots" our_snapshots, their_snapshots;
}
