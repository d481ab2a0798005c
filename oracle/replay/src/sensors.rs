//! Lists of sensors: the calls of a case, and a list as lines and back.

use cases::sensors::SensorsCase;

use crate::Line;

/// What stands in the place of a sensor past the end of the list.
const ENDED: u64 = 1 << 32;

/// How many lines answer each call.
pub const LINES: usize = 4;

/// An empty list with its limit, then the sensors.
pub fn calls(case: &SensorsCase) -> Vec<Line> {
    let begin = Line::of('L', case.limit);
    let sensor = |sensor: &u32| Line::of('S', u64::from(*sensor));
    let sensors = case.sensors.iter().map(sensor);
    std::iter::once(begin).chain(sensors).collect()
}

/// The lines that a list is answered by.
pub fn lines(list: &[u32]) -> Vec<Line> {
    let at = |place: usize| list.get(place).map_or(ENDED, |sensor| u64::from(*sensor));
    let line = |line: usize| Line::new('S', [0, 1, 2, 3].map(|place| at(4 * line + place)));
    (0..LINES).map(line).collect()
}

/// The list that the lines stand for.
pub fn list(lines: &[Line]) -> Vec<u32> {
    let places = lines.iter().flat_map(|line| line.numbers);
    let taken = places.take_while(|place| *place != ENDED);
    taken.map(|place| place as u32).collect()
}

#[cfg(test)]
mod tests {
    use super::*;

    #[test]
    fn a_list_is_read_back() {
        for length in [0, 1, 4, 15, 16] {
            let sensors: Vec<u32> = (0..length).map(|i| u32::MAX - i).collect();
            assert_eq!(list(&lines(&sensors)), sensors);
        }
    }
}
