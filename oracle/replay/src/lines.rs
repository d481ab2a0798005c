//! Lines of `assign`: the calls of a line, and its answer as lines.

use crate::Line;

/// The bytes of one call, and of each of its numbers.
const CALL: usize = 32;
const NUMBER: usize = 8;

/// The bytes, then the call.
pub fn calls(line: &[u8]) -> Vec<Line> {
    let mut calls = loads(line);
    calls.push(Line::of('Y', line.len() as u64));
    calls
}

/// The lines that an answer is given by.
pub fn lines(answer: &[u8]) -> Vec<Line> {
    let first = Line::of('Y', answer.len() as u64);
    std::iter::once(first).chain(loads(answer)).collect()
}

/// Eight bytes to a number, the highest first, zeros after the last.
fn loads(bytes: &[u8]) -> Vec<Line> {
    let load = |call: &[u8]| {
        let byte = |place: usize| u64::from(call.get(place).copied().unwrap_or(0));
        let number = |k: usize| (0..NUMBER).fold(0, |n, i| n << 8 | byte(NUMBER * k + i));
        Line::new('I', [0, 1, 2, 3].map(number))
    };
    bytes.chunks(CALL).map(load).collect()
}

#[cfg(test)]
mod tests {
    use super::*;

    #[test]
    fn bytes_in_order() {
        let line = b"(assign 0 0 0 ())\n";
        let numbers = [
            0x2861_7373_6967_6E20,
            0x3020_3020_3020_2829,
            0x290A << 48,
            0,
        ];
        assert_eq!(
            calls(line),
            [Line::new('I', numbers), Line::of('Y', line.len() as u64)]
        );
        assert_eq!(calls(b""), [Line::of('Y', 0)]);
        assert_eq!(lines(&[b' '; 33]).len(), 3);
    }
}
