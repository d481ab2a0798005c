//! Random sequences of calls, made on floors where something happens: people who walk, cross, stop, leave and come back, crowds up to
//! each limit, several sensors, equal and jumping times, covariances near every edge, and now and then a call that is refused.

mod moods;

use factor_tracker_core::judge::settings::SPOILERS;
use factor_tracker_core::tracker::Cartesian3DTrackerConfig;
use factor_tracker_core::types::{
    ClassLabel, FrameId, ObservationBatch3D, Position3DObservation, SensorId, Timestamp,
};
use inputs::Random;
use nalgebra::{Matrix3, Vector2, Vector3};
use trials::Case;

use super::{Call, CallsCase};
use crate::covariances::{covariance, Rows};
use crate::floats;
use crate::settings::SettingsCase;

use moods::Mood;

/// One who walks about.
struct Person {
    place: [f64; 3],
    velocity: [f64; 3],
    /// For so many batches nobody sees them.
    away: u64,
}

struct Floor {
    mood: Mood,
    settings: Cartesian3DTrackerConfig,
    people: Vec<Person>,
    sequences: Vec<u64>,
    /// The sensor of the last batch.
    sensor: usize,
    time: i64,
}

pub fn calls(random: &mut Random) -> CallsCase {
    if random.below(32) == 0 {
        return CallsCase {
            settings: any_settings(random),
            calls: Vec::new(),
        };
    }
    let mood = moods::any(random);
    if mood == Mood::Gate {
        return moods::at_the_gate(random);
    }
    let mut floor = Floor::new(random, mood);
    let count = match mood {
        Mood::Sensors => 40,
        Mood::Crowded | Mood::Full | Mood::Neighbours => 3 + random.below(5),
        _ => 1 + random.below(20),
    };
    let calls = (0..count).map(|_| floor.call(random)).collect();
    CallsCase {
        settings: floor.settings,
        calls,
    }
}

/// A detection at a distance of 1 from the only track, with the gate there and at the doubles beside it.
pub fn at_gates_of_one() -> Vec<CallsCase> {
    let gates = [1.0_f64, 1.0_f64.next_up(), 1.0_f64.next_down()];
    gates.into_iter().map(moods::at_a_gate).collect()
}

/// Settings of any kind, or good ones with one field spoilt.
fn any_settings(random: &mut Random) -> Cartesian3DTrackerConfig {
    if random.below(2) == 0 {
        return SettingsCase::random(random).0;
    }
    let mut settings = moods::settings(random, Mood::Everyday);
    SPOILERS[random.below(SPOILERS.len() as u64) as usize](&mut settings);
    settings
}

pub fn vector2(items: [f64; 2]) -> Vector2<f64> {
    Vector2::new(items[0], items[1])
}

/// A detection with nothing but its place.
pub fn detection(place: [f64; 3], rows: Rows<3>) -> Position3DObservation {
    let mut covariance = Matrix3::zeros();
    for (i, row) in rows.iter().enumerate() {
        for (j, x) in row.iter().enumerate() {
            covariance[(i, j)] = *x;
        }
    }
    Position3DObservation {
        position: Vector3::new(place[0], place[1], place[2]),
        covariance,
        class_label: None,
        appearance: None,
        score: None,
        velocity: None,
    }
}

fn sometimes<T>(random: &mut Random, item: impl Fn(&mut Random) -> T) -> Option<T> {
    (random.below(2) == 0).then(|| item(random))
}

/// A place on one axis, from which most distances to another such place are just finite.
fn far_out(random: &mut Random) -> [f64; 3] {
    let limit = one_of(random, &[3.7e153, 3.7e153, 1e153, 1e150, 1.0]);
    [limit * floats::unit(random), 0.0, 0.0]
}

/// A detection that is likely far from all tracks, or where `near`, likely not: nobody's place, or somebody's with a class of its own.
pub fn one_more(
    random: &mut Random,
    beside: Option<&Position3DObservation>,
    near: bool,
) -> Position3DObservation {
    let mut place = match random.below(3) {
        0 => [0.0; 3].map(|_| floats::within(random, 1e6)),
        _ => [0.0; 3].map(|_| floats::within(random, 300.0)),
    };
    let beside = beside.filter(|_| near || random.below(3) == 0);
    if let Some(beside) = beside {
        place = std::array::from_fn(|i| beside.position[i] + floats::within(random, 0.1));
    }
    let mut seen = moods::dressed(random, Mood::Everyday, place);
    if beside.is_some() && !near {
        seen.class_label = Some(ClassLabel::new(7));
    }
    seen
}

/// A place of few, whose offsets from one another have exact lengths, or lengths that are equal.
fn on_a_grid(random: &mut Random) -> [f64; 3] {
    let step = |random: &mut Random| 0.25 * (random.below(7) as f64 - 3.0);
    [step(random), one_of(random, &[0.0, 0.0, 0.25]), 0.0]
}

/// A place so far from most others that no two pair.
fn spread_out(random: &mut Random) -> [f64; 3] {
    [0.0; 3].map(|_| 100.0 * (random.below(40) as f64 - 20.0))
}

fn one_of<T: Copy>(random: &mut Random, items: &[T]) -> T {
    items[random.below(items.len() as u64) as usize]
}

impl Floor {
    fn new(random: &mut Random, mood: Mood) -> Self {
        let (people, sensors, limit) = match mood {
            Mood::Crowded => (40, 2, 300.0),
            Mood::Sensors => (1, 34, 6.0),
            Mood::Grid | Mood::Neighbours => (1, 1, 0.0),
            Mood::Full => (0, 1, 0.0),
            Mood::Classes => (2 + random.below(3), 1, 0.5),
            Mood::Crossing => (2 + random.below(3), 2, 3.0),
            _ => (random.below(5), 1 + random.below(3) as usize, 6.0),
        };
        Floor {
            mood,
            settings: moods::settings(random, mood),
            people: (0..people).map(|_| person(random, mood, limit)).collect(),
            sequences: vec![0; sensors],
            sensor: 0,
            time: if mood == Mood::Times { i64::MIN } else { 0 },
        }
    }

    fn call(&mut self, random: &mut Random) -> Call {
        let prior = match self.mood {
            Mood::Classes => 4,
            _ => 1,
        };
        match random.below(12) {
            0 => Call::PredictTo(self.next_time(random)),
            n if n <= prior => Call::SetClassPrior {
                track: random.below(6),
                label: random.below(3) as u32,
                confidence: match random.below(4) {
                    0 => floats::edge(random),
                    _ => floats::unit(random),
                },
            },
            _ => Call::ProcessBatch(self.batch(random)),
        }
    }

    /// Most calls go on by a tenth of a second, several bear one time, and some meet a timeout or miss it by one.
    fn next_time(&mut self, random: &mut Random) -> i64 {
        let common = &self.settings.common;
        let near = |time: i64, random: &mut Random| time.saturating_add(random.below(3) as i64 - 1);
        let after = match random.below(20) {
            0..=4 => 0,
            5 => near(common.tentative_timeout_ns, random),
            6 => near(common.confirmed_to_lost_ns, random),
            7 if random.below(2) == 0 => near(common.lost_to_delete_ns, random),
            8 => near(self.settings.recent_track_window_ns.unwrap_or(1), random),
            9 if random.below(2) == 0 => near(self.settings.birth_candidate_timeout_ns, random),
            10 if random.below(4) == 0 => -1,
            11 | 12 if self.mood == Mood::Times => i64::MAX,
            13 | 14 if self.mood == Mood::Times => return one_of(random, &[-1, 5, i64::MAX]),
            15 if self.mood == Mood::Huge => 5_000_000_000,
            _ => 100_000_000,
        };
        let next = self.time.saturating_add(after);
        self.time = self.time.max(next);
        next
    }

    fn batch(&mut self, random: &mut Random) -> ObservationBatch3D {
        let timestamp = Timestamp::from_nanos(self.next_time(random));
        self.sensor = match self.mood {
            Mood::Sensors => (self.sensor + 1) % self.sequences.len(),
            _ => random.below(self.sequences.len() as u64) as usize,
        };
        if random.below(40) > 0 {
            self.sequences[self.sensor] += 1 + random.below(2);
        }
        let mut observations = self.walk(random);
        let more = match self.mood {
            Mood::Crowded => random.below(30),
            Mood::Full | Mood::Neighbours => self.to_the_limit(random),
            Mood::Huge | Mood::Grid | Mood::Singular => random.below(5),
            _ => random.below(3),
        };
        observations.extend((0..more).map(|_| self.clutter(random)));
        match (random.below(8), self.mood) {
            (0, _) => observations.extend(observations.first().cloned()),
            (1..=3, Mood::Full) => observations.extend(self.no_birth(random)),
            _ => (),
        }
        ObservationBatch3D {
            sensor_id: SensorId::new(10 * self.sensor as u32),
            sequence: self.sequences[self.sensor],
            timestamp,
            frame_id: self.frame(random),
            observations,
        }
    }

    /// As many as there are places for, or nearly; then a few. Neighbours need somebody to be there before.
    fn to_the_limit(&self, random: &mut Random) -> u64 {
        match (self.sequences[self.sensor], self.mood) {
            (0..=2, Mood::Neighbours) => 0,
            (0..=2, _) | (3..=4, Mood::Neighbours) => one_of(random, &[32, 60, 62, 63, 64, 65]),
            _ => one_of(random, &[1, 1, 2, 3, 4]),
        }
    }

    /// One with which no track can begin, where no others of its kind are.
    fn no_birth(&self, random: &mut Random) -> Option<Position3DObservation> {
        let begun = self.sequences[self.sensor] > 2;
        begun.then(|| Position3DObservation {
            velocity: Some(vector2([1.0, 0.0])),
            ..self.clutter(random)
        })
    }

    fn frame(&self, random: &mut Random) -> FrameId {
        const OTHERS: [&str; 3] = ["", "worlds", "a name of more than thirty-two bytes"];
        match random.below(60) {
            0 => FrameId::new(one_of(random, &OTHERS)),
            _ => self.settings.frame_id.clone(),
        }
    }

    /// Everybody takes a step, and most are seen.
    fn walk(&mut self, random: &mut Random) -> Vec<Position3DObservation> {
        let mood = self.mood;
        let error = match mood {
            Mood::Grid | Mood::Neighbours => 0.0,
            _ => 0.2,
        };
        let mut seen = Vec::new();
        for person in &mut self.people {
            person.step(random);
            if person.away == 0 && random.below(8) > 0 {
                let place = person.place.map(|x| x + floats::within(random, error));
                seen.push(moods::dressed(random, mood, place));
            }
        }
        seen
    }

    /// A second box beside a person, a place where nobody is, or one beyond all sense.
    fn clutter(&self, random: &mut Random) -> Position3DObservation {
        let beside = self.people.first().map_or([0.0; 3], |p| p.place);
        let place = match (random.below(8), self.mood) {
            (0, Mood::Huge) => [0.0; 3].map(|_| floats::within(random, 1e200)),
            (_, Mood::Huge) => far_out(random),
            (_, Mood::Grid) => on_a_grid(random),
            (_, Mood::Full | Mood::Neighbours) => spread_out(random),
            (0..=3, _) => beside.map(|x| x + floats::within(random, 1.0)),
            (4, _) => [0.0; 3].map(|_| one_of(random, &[0.0, -0.0, 2.0])),
            _ => [0.0; 3].map(|_| floats::within(random, 300.0)),
        };
        moods::dressed(random, self.mood, place)
    }
}

impl Person {
    /// Goes on, and now and then stops, turns, leaves or comes back.
    fn step(&mut self, random: &mut Random) {
        self.away = self.away.saturating_sub(1);
        for (x, v) in self.place.iter_mut().zip(self.velocity) {
            *x += 0.1 * v;
        }
        match random.below(24) {
            0 => self.velocity = [0.0; 3],
            1 => self.velocity = self.velocity.map(|v| -v),
            2 => self.away = 1 + random.below(6),
            3 => self.velocity = [0.0; 3].map(|_| floats::within(random, 1.0)),
            _ => (),
        }
    }
}

/// One of those on a floor; where they cross, all walk to its middle.
fn person(random: &mut Random, mood: Mood, limit: f64) -> Person {
    let place = [0.0; 3].map(|_| floats::within(random, limit));
    let velocity = match mood {
        Mood::Grid | Mood::Neighbours => [0.0; 3],
        Mood::Crossing => place.map(|x| -x),
        _ => [0.0; 3].map(|_| floats::within(random, 1.0)),
    };
    Person {
        place,
        velocity,
        away: 0,
    }
}
