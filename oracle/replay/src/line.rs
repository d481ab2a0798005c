//! A line: a letter and four numbers of 16 hexadecimal digits, each after a blank.

#[derive(Clone, Copy, Debug, PartialEq, Eq)]
pub struct Line {
    pub letter: char,
    pub numbers: [u64; 4],
}

impl Line {
    /// The bytes of a line, with its newline.
    pub const LENGTH: usize = 70;

    pub fn new(letter: char, numbers: [u64; 4]) -> Self {
        Line { letter, numbers }
    }

    /// A call that takes one number.
    pub fn of(letter: char, number: u64) -> Self {
        Line::new(letter, [number, 0, 0, 0])
    }

    pub fn text(&self) -> String {
        let [a, b, c, d] = self.numbers;
        format!("{} {a:016X} {b:016X} {c:016X} {d:016X}\n", self.letter)
    }

    pub fn read(text: &str) -> Option<Self> {
        let mut words = text.trim_end_matches('\n').split(' ');
        let letter = words.next()?.parse().ok()?;
        let mut numbers = [0; 4];
        for number in &mut numbers {
            *number = u64::from_str_radix(words.next()?, 16).ok()?;
        }
        Some(Line { letter, numbers })
    }
}

#[cfg(test)]
mod tests {
    use super::*;

    #[test]
    fn a_line_is_read_back() {
        let line = Line::new('G', [0, 1, u64::MAX, 0x0123_4567_89AB_CDEF]);
        let text = line.text();
        assert_eq!(
            text,
            "G 0000000000000000 0000000000000001 FFFFFFFFFFFFFFFF 0123456789ABCDEF\n"
        );
        assert_eq!(text.len(), Line::LENGTH);
        assert_eq!(Line::read(&text), Some(line));
        assert_eq!(Line::read("G 0 0 0"), None);
    }
}
