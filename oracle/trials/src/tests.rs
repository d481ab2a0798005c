//! The runs over a part with a known fault.

use inputs::Random;

use crate::counts::Counts;
use crate::part::{Case, Part};
use crate::run;

#[derive(Clone, Debug, PartialEq)]
struct Pair(u64, u64);

impl Case for Pair {
    type Reply = u64;

    fn fixed() -> Vec<Self> {
        vec![Pair(0, 0), Pair(9, 9)]
    }

    fn random(random: &mut Random) -> Self {
        Pair(random.below(100), random.below(100))
    }

    fn judged(&self) -> u64 {
        self.0 + self.1
    }

    fn smaller(&self) -> impl Iterator<Item = Self> {
        let first = [self.0 / 2, self.0.saturating_sub(1)].map(|a| Pair(a, self.1));
        let second = [self.1 / 2, self.1.saturating_sub(2)].map(|b| Pair(self.0, b));
        let found = [first, second].concat().into_iter();
        found.filter(move |smaller| smaller != self)
    }

    fn print(&self) -> String {
        format!("{} {}", self.0, self.1)
    }

    fn parse(words: &[String]) -> Option<Self> {
        match words {
            [a, b] => Some(Pair(a.parse().ok()?, b.parse().ok()?)),
            _ => None,
        }
    }

    fn told_apart(ours: &u64, theirs: &u64) -> String {
        format!("ours {ours}, theirs {theirs}")
    }
}

/// A sum that is one too large where the first number is at least 10 and the second is odd.
struct Sum;

impl Part for Sum {
    const NAME: &'static str = "sum";
    const WHAT: &'static str = "a faulty sum against the machine's";
    const COUNT: u64 = 1000;
    const BRIEF: u64 = 100;

    type Case = Pair;

    fn ours(case: &Pair) -> u64 {
        let fault = case.0 >= 10 && case.1 % 2 == 1;
        case.0 + case.1 + u64::from(fault)
    }
}

fn words(text: &str) -> Vec<String> {
    text.split(' ').map(str::to_string).collect()
}

#[test]
fn the_fault_is_found_and_made_small() {
    let found = run::first_difference::<Sum>(&Pair::fixed(), 1, 1000, &mut Counts::default());
    let (tried, case) = found.expect("a fault");
    assert!(tried > 2, "the fixed cases have no fault");
    assert_eq!(run::smallest::<Sum>(case), Pair(10, 1));
    assert!(!run::random::<Sum>(1, 1000));
}

#[test]
fn one_seed_gives_one_run() {
    let first = |seed| run::first_difference::<Sum>(&[], seed, 1000, &mut Counts::default());
    assert_eq!(first(5), first(5));
    assert_ne!(first(5), first(6));
}

#[test]
fn a_case_alone() {
    assert_eq!(run::case::<Sum>(&words("10 1")), Ok(false));
    assert_eq!(run::case::<Sum>(&words("10 2")), Ok(true));
    assert!(run::case::<Sum>(&words("10")).is_err());
    assert!(run::random::<Sum>(1, 0), "only the fixed cases");
}
