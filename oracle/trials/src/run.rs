//! Runs of a part: fixed and random cases, one case alone, and the search for a smaller case that differs too.

use std::time::{Duration, Instant};

use inputs::Random;

use crate::counts::Counts;
use crate::part::{Case, Part};
use crate::progress::Progress;

/// The fixed cases, then `count` random ones. Says how often each thing was met, and what was found; true if nothing differs.
pub fn random<P: Part>(seed: u64, count: u64) -> bool {
    run::<P>(seed, count, P::Case::COUNTED)
}

/// A brief run of the same kind, without the table.
pub fn brief<P: Part>(seed: u64) -> bool {
    run::<P>(seed, P::BRIEF, &[])
}

fn run<P: Part>(seed: u64, count: u64, shown: &[&'static str]) -> bool {
    let (fixed, mut counts) = (P::Case::fixed(), Counts::default());
    match first_difference::<P>(&fixed, seed, count, &mut counts) {
        None => {
            print!("{}", counts.table(shown));
            println!(
                "{}: {}: {} fixed and {count} random cases, seed {seed}: none differs",
                P::NAME,
                P::WHAT,
                fixed.len()
            );
            true
        }
        Some((tried, case)) => {
            println!("{}: case {tried} of seed {seed} differs", P::NAME);
            report::<P>(&smallest::<P>(case));
            false
        }
    }
}

/// How many cases there are up to the first that differs, which is not made smaller. Nothing is counted.
pub fn first<P: Part>(seed: u64, count: u64) -> Option<u64> {
    let mut random = Random::new(seed);
    let fixed = P::Case::fixed().into_iter();
    let more = (0..count).map(|_| P::Case::random(&mut random));
    let mut cases = fixed.chain(more).enumerate();
    let found = cases.find(|(_, case)| differs::<P>(case));
    found.map(|(before, _)| before as u64 + 1)
}

/// One case, given by its words.
pub fn case<P: Part>(words: &[String]) -> Result<bool, String> {
    let case = P::Case::parse(words).ok_or_else(|| format!("{}: no such case", P::NAME))?;
    if differs::<P>(&case) {
        report::<P>(&case);
        return Ok(false);
    }
    println!("{}: {}: {}: no difference", P::NAME, P::WHAT, case.print());
    Ok(true)
}

fn differs<P: Part>(case: &P::Case) -> bool {
    P::ours(case) != case.judged()
}

/// The first case that differs, and how many were tried with it.
pub(crate) fn first_difference<P: Part>(
    fixed: &[P::Case],
    seed: u64,
    count: u64,
    counts: &mut Counts,
) -> Option<(u64, P::Case)> {
    let mut random = Random::new(seed);
    let mut progress = Progress::new(P::NAME, fixed.len() as u64 + count);
    let more = (0..count).map(|_| P::Case::random(&mut random));
    for (tried, case) in (1..).zip(fixed.iter().cloned().chain(more)) {
        if P::ours(&case) != case.judged_counting(counts) {
            progress.end();
            return Some((tried, case));
        }
        progress.done(tried);
    }
    progress.end();
    None
}

/// How long a smaller case is looked for.
const PATIENCE: Duration = Duration::from_secs(60);

/// Goes to a smaller case that differs for as long as there is one, and patience lasts.
pub(crate) fn smallest<P: Part>(mut case: P::Case) -> P::Case {
    let began = Instant::now();
    loop {
        let mut smaller = case.smaller().take_while(|_| began.elapsed() < PATIENCE);
        let next = smaller.find(differs::<P>);
        drop(smaller);
        match next {
            Some(smaller) => case = smaller,
            None => return case,
        }
    }
}

fn report<P: Part>(case: &P::Case) {
    let told = P::Case::told_apart(&P::ours(case), &case.judged());
    println!(
        "{told}\nalone: ./compare {} --case {}",
        P::NAME,
        case.print()
    );
}
