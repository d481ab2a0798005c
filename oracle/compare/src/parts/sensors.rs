//! The contributing sensors: our program replay against the Rust.

use cases::sensors::SensorsCase;
use replay::sensors::{self, LINES};
use trials::Part;

pub struct SensorsPart;

impl Part for SensorsPart {
    const NAME: &'static str = "sensors";
    const WHAT: &'static str = "lists of contributing sensors against the Rust's";
    const COUNT: u64 = 1_000_000;
    const BRIEF: u64 = 20_000;

    type Case = SensorsCase;

    fn ours(case: &SensorsCase) -> Vec<Vec<u32>> {
        // The empty list is answered too, before the sensors.
        let answers = replay::answers(&sensors::calls(case), LINES * (1 + case.sensors.len()));
        answers[LINES..].chunks(LINES).map(sensors::list).collect()
    }
}
