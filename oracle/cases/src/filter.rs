//! A filter and steps on it; the reply has what each step answers and leaves.

use factor_tracker_core::judge::filter::Filter;
use inputs::Random;
use trials::Case;

use crate::covariances::{covariance, Rows};
use crate::floats;
use crate::words::{self, Words};

#[derive(Clone, Debug)]
pub struct FilterCase {
    pub state: [f64; 6],
    pub covariance: Rows<6>,
    pub steps: Vec<Step>,
}

#[derive(Clone, Debug)]
pub enum Step {
    Predict { dt: f64, q: f64 },
    Position { z: [f64; 3], r: Rows<3> },
    Velocity { z: [f64; 2], std: f64 },
    Distance { z: [f64; 3], r: Rows<3> },
}

/// What a step answers and leaves, numbers by their bits. The first reply is that of the new filter.
#[derive(Clone, Debug, PartialEq, Eq)]
pub struct StepReply {
    /// 0, or the refusal's number.
    pub number: u32,
    pub distance: Option<u64>,
    pub state: Vec<u64>,
    pub covariance: Vec<u64>,
}

impl StepReply {
    /// The reply where no filter is made.
    pub fn none(number: u32) -> Self {
        StepReply {
            number,
            distance: None,
            state: Vec::new(),
            covariance: Vec::new(),
        }
    }
}

impl Step {
    fn random(random: &mut Random) -> Self {
        match random.below(5) {
            0 => {
                let dt = seconds(random);
                let q = density(random, dt);
                Step::Predict { dt, q }
            }
            1 => Step::Velocity {
                z: [place(random), place(random)],
                std: deviation(random),
            },
            2 | 3 => Step::Position {
                z: places(random),
                r: covariance(random),
            },
            _ => Step::Distance {
                z: places(random),
                r: covariance(random),
            },
        }
    }

    fn print(&self) -> String {
        let with_covariance = |z: &[f64; 3], r: &Rows<3>| {
            format!("{} {}", words::floats(z), words::floats(r.as_flattened()))
        };
        match self {
            Step::Predict { dt, q } => format!(" predict {}", words::floats(&[*dt, *q])),
            Step::Velocity { z, std } => {
                format!(" velocity {}", words::floats(&[z[0], z[1], *std]))
            }
            Step::Position { z, r } => format!(" position {}", with_covariance(z, r)),
            Step::Distance { z, r } => format!(" distance {}", with_covariance(z, r)),
        }
    }

    fn parse(words: &mut Words) -> Option<Self> {
        Some(match words.word()? {
            "predict" => {
                let [dt, q] = words.floats()?;
                Step::Predict { dt, q }
            }
            "velocity" => {
                let [x, y, std] = words.floats()?;
                Step::Velocity { z: [x, y], std }
            }
            "position" => Step::Position {
                z: words.floats()?,
                r: words.rows()?,
            },
            "distance" => Step::Distance {
                z: words.floats()?,
                r: words.rows()?,
            },
            _ => return None,
        })
    }
}

/// A time difference as the tracker makes it of nanoseconds.
fn seconds(random: &mut Random) -> f64 {
    let nanoseconds = match random.below(16) {
        0 => 1,
        1 => i64::MAX,
        2 => random.draw() as i64,
        3 => 1_000_000_000,
        _ => random.below(2_000_000_000) as i64,
    };
    nanoseconds as f64 / 1e9
}

/// A density, sometimes one at which a term of the noise over `dt` just overflows.
fn density(random: &mut Random, dt: f64) -> f64 {
    let near_largest = |term: f64| (f64::MAX / term.abs()).min(f64::MAX);
    match random.below(32) {
        0 | 1 => 0.0,
        2 => -0.0,
        3 => 2.0_f64.powi(random.below(2040) as i32 - 1020),
        4 => near_largest(dt * dt * dt) * (0.5 + floats::unit(random)),
        5 => near_largest(dt * dt) * (0.5 + floats::unit(random)),
        6..=9 => 1.0,
        _ => floats::positive(random, 4),
    }
}

fn deviation(random: &mut Random) -> f64 {
    match random.below(24) {
        0 => 1e200,
        1 => 1e-200,
        2 => 1e154,
        _ => floats::positive(random, 3),
    }
}

fn place(random: &mut Random) -> f64 {
    match random.below(48) {
        0 => floats::edge(random),
        1 => floats::within(random, 1e300),
        2 => -0.0,
        _ => floats::within(random, 8.0),
    }
}

fn places<const N: usize>(random: &mut Random) -> [f64; N] {
    std::array::from_fn(|_| place(random))
}

fn bits(items: &[f64]) -> Vec<u64> {
    items.iter().map(|x| x.to_bits()).collect()
}

fn reply(filter: &Filter, answer: Result<Option<f64>, u32>) -> StepReply {
    StepReply {
        number: answer.err().unwrap_or(0),
        distance: answer.ok().flatten().map(f64::to_bits),
        state: bits(&filter.state()),
        covariance: bits(filter.covariance().as_flattened()),
    }
}

fn stepped(filter: &mut Filter, step: &Step) -> StepReply {
    let answer = match *step {
        Step::Predict { dt, q } => filter.predict(dt, q).map(|()| None),
        Step::Position { z, r } => filter.update_position(z, r).map(|()| None),
        Step::Velocity { z, std } => filter.update_velocity(z, std).map(|()| None),
        Step::Distance { z, r } => filter.squared_distance(z, r).map(Some),
    };
    reply(filter, answer)
}

impl Case for FilterCase {
    type Reply = Vec<StepReply>;

    fn fixed() -> Vec<Self> {
        Vec::new()
    }

    fn random(random: &mut Random) -> Self {
        let count = 1 + random.below(6);
        FilterCase {
            state: places(random),
            covariance: covariance(random),
            steps: (0..count).map(|_| Step::random(random)).collect(),
        }
    }

    fn judged(&self) -> Vec<StepReply> {
        let mut filter = match Filter::new(self.state, self.covariance) {
            Ok(filter) => filter,
            Err(number) => return vec![StepReply::none(number)],
        };
        let first = reply(&filter, Ok(None));
        let steps = self.steps.iter().map(|step| stepped(&mut filter, step));
        std::iter::once(first).chain(steps).collect()
    }

    fn smaller(&self) -> impl Iterator<Item = Self> {
        let with = |steps| FilterCase {
            steps,
            ..self.clone()
        };
        let shorter = words::shorter(&self.steps).map(with);
        shorter.chain(words::with_smaller_numbers(self))
    }

    fn print(&self) -> String {
        let start = [&self.state[..], self.covariance.as_flattened()].concat();
        let steps: String = self.steps.iter().map(Step::print).collect();
        format!("{}{steps}", words::floats(&start))
    }

    fn parse(words: &[String]) -> Option<Self> {
        let mut words = Words::new(words);
        Some(FilterCase {
            state: words.floats()?,
            covariance: words.rows()?,
            steps: words.all(Step::parse)?,
        })
    }

    fn told_apart(ours: &Vec<StepReply>, theirs: &Vec<StepReply>) -> String {
        words::first_difference(ours, theirs)
    }
}
