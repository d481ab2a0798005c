//! Lifecycles: a new record and calls on it, the record shown after each.

use factor_tracker_core::judge::lifecycle::{Lifecycle, LifecycleRecord};
use factor_tracker_core::types::TrackerConfig;
use inputs::Random;
use trials::Case;

use crate::words::{self, Words};

#[derive(Clone, Debug, PartialEq)]
pub struct LifecycleCase {
    pub confirm_min_observation_times: u32,
    pub tentative_timeout_ns: i64,
    pub confirmed_to_lost_ns: i64,
    pub lost_to_delete_ns: i64,
    pub created_at: i64,
    pub steps: Vec<Step>,
}

#[derive(Clone, Copy, Debug, PartialEq)]
pub enum Step {
    Register(i64),
    Credit(u32),
    Advance(i64),
}

/// What a step leaves. Only `Advance` says whether the track is dropped.
#[derive(Clone, Debug, PartialEq)]
pub struct StepReply {
    pub dropped: Option<bool>,
    pub record: LifecycleRecord,
}

impl LifecycleCase {
    fn config(&self) -> TrackerConfig {
        TrackerConfig {
            confirm_min_observation_times: self.confirm_min_observation_times,
            tentative_timeout_ns: self.tentative_timeout_ns,
            confirmed_to_lost_ns: self.confirmed_to_lost_ns,
            lost_to_delete_ns: self.lost_to_delete_ns,
            ..TrackerConfig::default()
        }
    }

    /// A time at which something may change: the last one and a timeout, or one beside it, or any.
    fn time(&self, random: &mut Random, last: i64) -> i64 {
        let timeouts = [
            self.tentative_timeout_ns,
            self.confirmed_to_lost_ns,
            self.lost_to_delete_ns,
        ];
        let after = match random.below(8) {
            0 => 0,
            1 => random.below(3_000_000_000) as i64,
            2 => -(random.below(1000) as i64),
            3 => return any_time(random),
            _ => timeouts[random.below(3) as usize].saturating_add(random.below(3) as i64 - 1),
        };
        last.saturating_add(after)
    }

    fn step(&self, random: &mut Random, last: &mut i64) -> Step {
        match random.below(8) {
            0 => Step::Credit([0, 1, 2, 5, u32::MAX - 1, u32::MAX][random.below(6) as usize]),
            1..=3 => {
                *last = self.time(random, *last);
                Step::Register(*last)
            }
            _ => Step::Advance(self.time(random, *last)),
        }
    }
}

fn any_time(random: &mut Random) -> i64 {
    match random.below(4) {
        0 => i64::MIN + random.below(2) as i64,
        1 => i64::MAX - random.below(2) as i64,
        2 => random.draw() as i64,
        _ => random.below(5) as i64 - 2,
    }
}

fn timeout(random: &mut Random) -> i64 {
    match random.below(4) {
        0 => 1 + random.below(3) as i64,
        1 => i64::MAX - random.below(2) as i64,
        _ => 500_000_000 * (1 + random.below(4) as i64),
    }
}

impl Case for LifecycleCase {
    type Reply = Vec<StepReply>;

    fn fixed() -> Vec<Self> {
        Vec::new()
    }

    fn random(random: &mut Random) -> Self {
        let confirmed_to_lost_ns = timeout(random);
        let mut case = LifecycleCase {
            confirm_min_observation_times: [0, 1, 2, 3, u32::MAX][random.below(5) as usize],
            tentative_timeout_ns: timeout(random),
            confirmed_to_lost_ns,
            lost_to_delete_ns: timeout(random).max(confirmed_to_lost_ns),
            created_at: any_time(random),
            steps: Vec::new(),
        };
        let mut last = case.created_at;
        let count = 1 + random.below(12);
        case.steps = (0..count).map(|_| case.step(random, &mut last)).collect();
        case
    }

    fn judged(&self) -> Vec<StepReply> {
        let config = self.config();
        let mut lifecycle = Lifecycle::new(self.created_at);
        let reply = |step: &Step| {
            let mut dropped = None;
            match *step {
                Step::Register(time) => lifecycle.register_observation(time, &config),
                Step::Credit(count) => lifecycle.credit_observation_times(count, &config),
                Step::Advance(time) => dropped = Some(lifecycle.advance(time, &config)),
            }
            let record = lifecycle.record();
            StepReply { dropped, record }
        };
        self.steps.iter().map(reply).collect()
    }

    fn smaller(&self) -> impl Iterator<Item = Self> {
        let with = |steps| LifecycleCase {
            steps,
            ..self.clone()
        };
        let shorter = words::shorter(&self.steps).map(with);
        shorter.chain(words::with_smaller_numbers(self))
    }

    fn print(&self) -> String {
        let step = |step: &Step| match step {
            Step::Register(time) => format!(" register {time}"),
            Step::Credit(count) => format!(" credit {count}"),
            Step::Advance(time) => format!(" advance {time}"),
        };
        format!(
            "{} {} {} {} {}{}",
            self.confirm_min_observation_times,
            self.tentative_timeout_ns,
            self.confirmed_to_lost_ns,
            self.lost_to_delete_ns,
            self.created_at,
            self.steps.iter().map(step).collect::<String>()
        )
    }

    fn parse(words: &[String]) -> Option<Self> {
        let mut words = Words::new(words);
        Some(LifecycleCase {
            confirm_min_observation_times: words.whole()?,
            tentative_timeout_ns: words.whole()?,
            confirmed_to_lost_ns: words.whole()?,
            lost_to_delete_ns: words.whole()?,
            created_at: words.whole()?,
            steps: words.all(|words| match words.word()? {
                "register" => words.whole().map(Step::Register),
                "credit" => words.whole().map(Step::Credit),
                "advance" => words.whole().map(Step::Advance),
                _ => None,
            })?,
        })
    }

    fn told_apart(ours: &Vec<StepReply>, theirs: &Vec<StepReply>) -> String {
        words::first_difference(ours, theirs)
    }
}
