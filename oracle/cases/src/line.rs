//! Lines of the program `assign`: bytes in, bytes out. The oracle reads the line by a reader of its own and pairs by
//! the Rust.

mod oracle;

use inputs::Random;
use trials::Case;

#[derive(Clone, Debug, PartialEq)]
pub struct LineCase(pub Vec<u8>);

/// The longest line, with its newline.
pub const LONGEST: usize = 16_384;

/// Bytes behind a longest line: more than a pipe holds.
const MUCH_MORE: usize = 200_000;

/// Lines that every run begins with: the worked ones, then each rule kept and broken by itself.
const FIXED: &[&str] = &[
    "(assign 2 2 10 ((1 2) (- 4)))\n",
    "(assign 0 3 10 ())\n",
    "(assign 2 0 10 (() ()))\n",
    "(assign 2 2 10 ((- -) (- -)))\n",
    "(assign 1 1 10 ((10)))\n",
    "(assign 1 1 10 ((11)))\n",
    "(assign 0 0 0 ())\n",
    "(assign 64 0 1 ())\n",
    "(assign 0 64 1 ())\n",
    "(assign 65 1 1 ())\n",
    "(assign 1 65 1 ())\n",
    "(assign 1000000 1000000 1 ())\n",
    "(assign 1000001 1 1 ())\n",
    "(assign 1 1000001 1 ())\n",
    "(assign 65 1 1000001 ())\n",
    "(assign 65 1 1 ((1000001)))\n",
    "(assign 65 1 1 ((x)))\n",
    "(assign 65 1 1 ()\n",
    "(assign 1 1 -1000000 ((1000000)))\n",
    "(assign 1 1 1000000 ((-1000000)))\n",
    "(assign 1 1 -1000001 ((1)))\n",
    "(assign 1 1 1 ((-1000001)))\n",
    "(assign 1 1 - ((1)))\n",
    "(assign - 1 1 ((1)))\n",
    "(assign -1 1 1 ())\n",
    "(assign 1 -1 1 ())\n",
    "(assign 1 1 0 ((-0)))\n",
    "(assign 1 1 -0 ((0)))\n",
    "(assign -0 1 0 ())\n",
    "(assign 01 1 1 ((1)))\n",
    "(assign 1 1 01 ((1)))\n",
    "(assign 1 1 1 ((01)))\n",
    "(assign 1 1 1 ((-01)))\n",
    "(assign 1 1 1 ((00)))\n",
    "(assign 1 1 1 ((+1)))\n",
    "(assign 1 1 1 ((--1)))\n",
    "(assign 1 1 1 ((1-)))\n",
    "(assign 1 1 1 ((1.0)))\n",
    "(assign 1 1 1 ((18446744073709551617)))\n",
    "(assign 1 1 1 ((4294967297)))\n",
    "(assign  1 1 1 ((1)))\n",
    "(assign 1 2 1 ((1  2)))\n",
    "(assign 2 1 1 ((1)  (2)))\n",
    "(assign 1 1 1 ( (1)))\n",
    "(assign 1 1 1 ((1) ))\n",
    "(assign 1 1 1 (( 1)))\n",
    "(assign 1 1 1 ((1 )))\n",
    "(assign 1 1 1 ((1)) )\n",
    "( assign 1 1 1 ((1)))\n",
    " (assign 1 1 1 ((1)))\n",
    "(assign 1 1 1 ((1))) \n",
    "(assign 2 1 1 ((1)(2)))\n",
    "(assign 1 1 1((1)))\n",
    "(assign 1 1 1\t((1)))\n",
    "(assign 1 1 1 ((1)))",
    "(assign 1 1 1 ((1)))\n\n",
    "(assign 1 1 1 ((1)))\nx",
    "(assign 1 1 1 ((1)))\r\n",
    "(assign 1 1 1 ((1))\n",
    "(assign 1 1 1 ((1))))\n",
    "(assign 1 1 1 (((1))))\n",
    "(assign 1 1 1 ((((1)))))\n",
    "(assign 1 1 1 (1))\n",
    "(assign 1 1 1 1)\n",
    "(assign 1 1 1)\n",
    "(assign 1 1 1 ((1)) 1)\n",
    "(Assign 1 1 1 ((1)))\n",
    "(assigns 1 1 1 ((1)))\n",
    "assign 1 1 1 ((1))\n",
    "(assign 2 1 1 ((1)))\n",
    "(assign 1 1 1 ((1) (1)))\n",
    "(assign 1 1 1 ((1 1)))\n",
    "(assign 1 2 1 ((1)))\n",
    "(assign 2 2 1 ((1 1) (1)))\n",
    "(assign 0 0 1 (()))\n",
    "(((())))\n",
    "((((()))))\n",
    "((((x))))\n",
    "()\n",
    "x\n",
    "\n",
    "",
];

/// A line of so many bytes that is answered: 64 rows of 64 entries, each as long as there is room for.
fn full(length: usize) -> String {
    let line = |lengths: &[usize]| {
        let entry = |length: &usize| format!("1{}", "0".repeat(length - 1));
        let row = |lengths: &[usize]| lengths.iter().map(entry).collect::<Vec<_>>().join(" ");
        let rows = lengths
            .chunks(64)
            .map(|lengths| format!("({})", row(lengths)));
        format!(
            "(assign 64 64 1000000 ({}))\n",
            rows.collect::<Vec<_>>().join(" ")
        )
    };
    let mut lengths = [1; 64 * 64];
    let mut room = length - line(&lengths).len();
    for entry in &mut lengths {
        let more = room.min(5);
        *entry += more;
        room -= more;
    }
    line(&lengths)
}

/// A line of so many bytes whose one row has more entries than a table may have costs.
fn overlong_row(length: usize) -> String {
    let inside = length - "(assign 1 64 1 (()))\n".len();
    let (ones, last) = ("1 ".repeat((inside - 1) / 2), "1".repeat(2 - inside % 2));
    format!("(assign 1 64 1 (({ones}{last})))\n")
}

/// What is put in or over a byte to spoil a line.
const SPOILERS: &[u8] = b"  ()--0123456789\n\tax\x00\xFF";

fn number(random: &mut Random, span: u64) -> String {
    match random.below(60) {
        0 => "1000000".to_string(),
        1 => "-1000000".to_string(),
        2 => [
            "1000001",
            "-1000001",
            "-0",
            "00",
            "01",
            "+1",
            "99999999999999999999",
            "1.0",
        ][random.below(8) as usize]
            .to_string(),
        _ => (random.below(2 * span + 1) as i64 - span as i64).to_string(),
    }
}

fn entry(random: &mut Random, span: u64) -> String {
    match random.below(4) {
        0 => "-".to_string(),
        _ => number(random, span),
    }
}

fn side(random: &mut Random) -> u64 {
    match random.below(48) {
        0 => 64,
        1 => 65,
        2 => random.below(65),
        _ => random.below(5),
    }
}

/// A line of the right shape, with a row or an entry too many or too few now and then.
fn shaped(random: &mut Random) -> String {
    let (rows, columns) = (side(random), side(random));
    let span = [2, 50, 1_000_000][random.below(3) as usize];
    let about = |random: &mut Random, count: u64| match random.below(100) {
        0 => count + 1,
        1 => count.saturating_sub(1),
        _ => count,
    };
    let row = |random: &mut Random| {
        let entries: Vec<String> = (0..about(random, columns))
            .map(|_| entry(random, span))
            .collect();
        format!("({})", entries.join(" "))
    };
    let table: Vec<String> = (0..about(random, rows)).map(|_| row(random)).collect();
    let row_cost = number(random, span);
    format!(
        "(assign {rows} {columns} {row_cost} ({}))\n",
        table.join(" ")
    )
}

/// One byte more, one less, one other, or the line cut off.
fn spoil(random: &mut Random, line: &mut Vec<u8>) {
    let place = random.below(line.len() as u64) as usize;
    let byte = SPOILERS[random.below(SPOILERS.len() as u64) as usize];
    match random.below(4) {
        0 => line.insert(place, byte),
        1 => drop(line.remove(place)),
        2 => line[place] = byte,
        _ => line.truncate(place),
    }
}

impl Case for LineCase {
    type Reply = Vec<u8>;

    fn fixed() -> Vec<Self> {
        let around = [LONGEST - 1, LONGEST, LONGEST + 1];
        let long = around.into_iter().flat_map(|n| [full(n), overlong_row(n)]);
        let more = [1, MUCH_MORE].map(|n| full(LONGEST) + &"x".repeat(n));
        let owned = FIXED.iter().map(|line| line.to_string());
        let owned = owned.chain(long).chain(more);
        owned.map(|line| LineCase(line.into_bytes())).collect()
    }

    fn random(random: &mut Random) -> Self {
        let line = match random.below(1_000) {
            0 => full(LONGEST - 2 + random.below(5) as usize),
            _ => shaped(random),
        };
        let mut line = line.into_bytes();
        for _ in 0..random.below(3) * random.below(2) {
            if !line.is_empty() {
                spoil(random, &mut line);
            }
        }
        LineCase(line)
    }

    fn judged(&self) -> Vec<u8> {
        oracle::answer(&self.0).into_bytes()
    }

    fn smaller(&self) -> impl Iterator<Item = Self> {
        crate::words::shorter(&self.0).map(LineCase)
    }

    /// Two digits for each byte, so that no shell changes it.
    fn print(&self) -> String {
        let byte = |byte: &u8| format!("{byte:02X}");
        self.0.iter().map(byte).collect()
    }

    fn parse(words: &[String]) -> Option<Self> {
        let digits = match words {
            [] => "",
            [word] => word.as_str(),
            _ => return None,
        };
        let byte = |i: usize| u8::from_str_radix(digits.get(2 * i..2 * i + 2)?, 16).ok();
        let bytes: Option<Vec<u8>> = (0..digits.len().div_ceil(2)).map(byte).collect();
        bytes.map(LineCase)
    }

    fn told_apart(ours: &Vec<u8>, theirs: &Vec<u8>) -> String {
        let shown = String::from_utf8_lossy;
        format!("ours   {:?}\noracle {:?}", shown(ours), shown(theirs))
    }
}
