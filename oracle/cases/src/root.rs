//! Inputs of the root, as bit patterns. The oracle is the machine's own root, which IEEE 754 makes the nearest.

use inputs::{roots, Random};
use trials::Case;

/// The refusal of a NaN and of a number below zero.
const REFUSED: u32 = 9;

const MANTISSA: u64 = (1 << 52) - 1;

#[derive(Clone, Copy, Debug, PartialEq, Eq)]
pub struct Root(pub u64);

/// What a call of the root answers, and what it leaves in the memory that it was lent.
#[derive(Clone, Copy, Debug, PartialEq, Eq)]
pub struct RootReply {
    pub number: u32,
    /// The bits in the answer's place; nothing if it is untouched.
    pub written: Option<u64>,
    /// Whether the places beside it are untouched.
    pub beside_untouched: bool,
}

impl Case for Root {
    type Reply = RootReply;

    fn fixed() -> Vec<Self> {
        roots::edges().into_iter().map(Root).collect()
    }

    fn random(random: &mut Random) -> Self {
        Root(roots::any(random))
    }

    fn judged(&self) -> RootReply {
        let x = f64::from_bits(self.0);
        // Zero of either sign has a root; a NaN is not at least zero.
        let rooted = x >= 0.0;
        RootReply {
            number: if rooted { 0 } else { REFUSED },
            written: rooted.then(|| x.sqrt().to_bits()),
            beside_untouched: true,
        }
    }

    fn smaller(&self) -> impl Iterator<Item = Self> {
        let (exponent, mantissa) = (self.0 >> 52 & 0x7FF, self.0 & MANTISSA);
        let towards_one = 1023 + (exponent as i64 - 1023) / 2;
        let with_exponent = |e: u64| self.0 & !(0x7FF << 52) | e << 52;
        let mut found = vec![
            self.0 & !MANTISSA,
            self.0 & !(1 << 63),
            with_exponent(1023),
            with_exponent(towards_one as u64),
        ];
        // The low digits go first, so that what is left are the leading ones.
        let set = (0..52).filter(|bit| mantissa >> bit & 1 == 1);
        found.extend(set.map(|bit| self.0 ^ 1 << bit));
        found.retain(|pattern| *pattern != self.0);
        found.into_iter().map(Root)
    }

    fn print(&self) -> String {
        format!("{:016X}", self.0)
    }

    fn parse(words: &[String]) -> Option<Self> {
        match words {
            [word] => u64::from_str_radix(word, 16).ok().map(Root),
            _ => None,
        }
    }

    fn told_apart(ours: &RootReply, theirs: &RootReply) -> String {
        format!("ours    {}\nmachine {}", shown(ours), shown(theirs))
    }
}

fn shown(reply: &RootReply) -> String {
    let written = match reply.written {
        Some(bits) => format!("{bits:016X} ({:e})", f64::from_bits(bits)),
        None => "nothing written".to_string(),
    };
    let beside = match reply.beside_untouched {
        true => "",
        false => ", memory beside the answer written",
    };
    format!("answers {}, {written}{beside}", reply.number)
}
