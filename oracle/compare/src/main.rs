//! Random runs of one part of ours against the oracle:
//!   compare NAME [SEED] [COUNT]      random cases
//!   compare NAME --case WORDS...     one case, as a difference prints it
//!   compare NAME --first SEED COUNT  how many cases until the first that differs, without making it smaller
//!   compare all [SEED]               every part, some seconds each

mod parts;

use std::process::ExitCode;
use std::time::{SystemTime, UNIX_EPOCH};

use parts::{Entry, PARTS};

fn main() -> ExitCode {
    let words: Vec<String> = std::env::args().skip(1).collect();
    match command(&words) {
        Ok(true) => ExitCode::SUCCESS,
        Ok(false) => ExitCode::FAILURE,
        Err(message) => {
            eprintln!("{message}");
            ExitCode::from(2)
        }
    }
}

/// Whether ours and the oracle agreed, or what is wrong with the words.
fn command(words: &[String]) -> Result<bool, String> {
    let (name, rest) = words.split_first().ok_or_else(usage)?;
    if name == "all" {
        let seed = number(rest.first(), "seed")?.unwrap_or_else(seed_of_the_clock);
        let differing = PARTS.iter().filter(|part| !(part.brief)(seed)).count();
        return Ok(differing == 0);
    }
    let part = PARTS
        .iter()
        .find(|part| part.name == name)
        .ok_or_else(usage)?;
    if rest.first().is_some_and(|word| word == "--case") {
        return (part.case)(&rest[1..]);
    }
    if rest.first().is_some_and(|word| word == "--first") {
        let seed = number(rest.get(1), "seed")?.unwrap_or(1);
        let found = (part.first)(seed, number(rest.get(2), "count")?);
        println!("{}", found.map_or("none".to_string(), |n| n.to_string()));
        return Ok(found.is_none());
    }
    let seed = number(rest.first(), "seed")?.unwrap_or_else(seed_of_the_clock);
    Ok((part.random)(seed, number(rest.get(1), "count")?))
}

fn number(word: Option<&String>, meaning: &str) -> Result<Option<u64>, String> {
    let parsed = |word: &String| {
        word.parse()
            .map_err(|_| format!("the {meaning} '{word}' is not a whole number"))
    };
    word.map(parsed).transpose()
}

/// Each run without a seed tries other cases; the seed is printed, so that any of them can be repeated.
fn seed_of_the_clock() -> u64 {
    let since = SystemTime::now().duration_since(UNIX_EPOCH);
    since.map_or(0, |time| time.as_micros() as u64)
}

fn usage() -> String {
    let line = |part: &Entry| format!("\n  {:<12}{}", part.name, part.what);
    let parts: String = PARTS.iter().map(line).collect();
    format!(
        "usage: compare NAME [SEED] [COUNT] | compare NAME --case WORDS... | compare all [SEED]\nparts:{parts}"
    )
}
