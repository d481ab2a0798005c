//! The list of contributing sensors.

use crate::types::SensorId;

/// The list after `sensor` has been recorded in it.
pub fn record_sensor(sensors: &[u32], sensor: u32, max: usize) -> Vec<u32> {
    let mut list: Vec<SensorId> = sensors.iter().copied().map(SensorId::new).collect();
    crate::tracker::record_sensor(&mut list, SensorId::new(sensor), max);
    list.into_iter().map(SensorId::value).collect()
}
