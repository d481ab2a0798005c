//! Lists of contributing sensors: a limit and the sensors that are recorded, the list shown after each.

use factor_tracker_core::judge::sensors::record_sensor;
use inputs::Random;
use trials::Case;

use crate::words::{self, Words};

/// Limits that accepted settings have.
const LIMITS: u64 = 16;

#[derive(Clone, Debug, PartialEq)]
pub struct SensorsCase {
    pub limit: u64,
    pub sensors: Vec<u32>,
}

impl Case for SensorsCase {
    type Reply = Vec<Vec<u32>>;

    fn fixed() -> Vec<Self> {
        Vec::new()
    }

    fn random(random: &mut Random) -> Self {
        let limit = 1 + random.below(LIMITS);
        let kinds = 1 + random.below(2 * LIMITS);
        let sensor = |random: &mut Random| match random.below(16) {
            0 => random.draw() as u32,
            1 => u32::MAX,
            _ => random.below(kinds) as u32,
        };
        let count = random.below(40);
        SensorsCase {
            limit,
            sensors: (0..count).map(|_| sensor(random)).collect(),
        }
    }

    fn judged(&self) -> Vec<Vec<u32>> {
        let mut list = Vec::new();
        let record = |sensor: &u32| {
            list = record_sensor(&list, *sensor, self.limit as usize);
            list.clone()
        };
        self.sensors.iter().map(record).collect()
    }

    fn smaller(&self) -> impl Iterator<Item = Self> {
        let with = |sensors| SensorsCase {
            sensors,
            ..self.clone()
        };
        let shorter = words::shorter(&self.sensors).map(with);
        let numbers = words::with_smaller_numbers(self).filter(|case| case.limit > 0);
        shorter.chain(numbers)
    }

    fn print(&self) -> String {
        let sensor = |sensor: &u32| format!(" {sensor}");
        let sensors = self.sensors.iter().map(sensor).collect::<String>();
        format!("{}{sensors}", self.limit)
    }

    fn parse(words: &[String]) -> Option<Self> {
        let mut words = Words::new(words);
        Some(SensorsCase {
            limit: words.whole()?,
            sensors: words.all(Words::whole)?,
        })
    }

    fn told_apart(ours: &Self::Reply, theirs: &Self::Reply) -> String {
        words::first_difference(ours, theirs)
    }
}
