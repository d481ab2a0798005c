//! What a part gives, so that it can be compared.

use inputs::Random;

use crate::counts::Counts;

/// An input of one part, with the oracle's reply to it.
pub trait Case: Clone {
    /// All that can be seen of the part's answer.
    type Reply: PartialEq;

    /// Cases that every run begins with.
    fn fixed() -> Vec<Self>;

    fn random(random: &mut Random) -> Self;

    /// The oracle's reply.
    fn judged(&self) -> Self::Reply;

    /// What is counted over a run, in the order of the table.
    const COUNTED: &'static [&'static str] = &[];

    /// The oracle's reply, and what the case meets of that.
    fn judged_counting(&self, _counts: &mut Counts) -> Self::Reply {
        self.judged()
    }

    /// Cases that are smaller than this one, the boldest first. Each chain of them must end.
    fn smaller(&self) -> impl Iterator<Item = Self>;

    /// The words of a case, and the case that words stand for.
    fn print(&self) -> String;
    fn parse(words: &[String]) -> Option<Self>;

    /// What tells two different replies apart, in a few lines.
    fn told_apart(ours: &Self::Reply, theirs: &Self::Reply) -> String;
}

/// One part of ours.
pub trait Part {
    const NAME: &'static str;
    /// What is compared with what, in a few words.
    const WHAT: &'static str;
    /// How many random cases a run takes unless told otherwise, and how many a brief one takes.
    const COUNT: u64;
    const BRIEF: u64;

    type Case: Case;

    /// Our reply.
    fn ours(case: &Self::Case) -> <Self::Case as Case>::Reply;
}
