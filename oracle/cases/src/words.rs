//! Words of a case: how its numbers are printed and read back, and how a case is made smaller by making one word so.

use std::fmt::Debug;
use std::str::FromStr;

use trials::Case;

use crate::floats;

/// A binary64 by its bits: an x and 16 digits.
pub fn float(x: f64) -> String {
    format!("x{:016X}", x.to_bits())
}

pub fn floats(items: &[f64]) -> String {
    items
        .iter()
        .copied()
        .map(float)
        .collect::<Vec<_>>()
        .join(" ")
}

/// What is absent is a dash.
pub fn optional<T>(item: Option<T>, word: impl Fn(T) -> String) -> String {
    item.map_or("-".to_string(), word)
}

fn float_of(word: &str) -> Option<f64> {
    let digits = word.strip_prefix('x').filter(|digits| digits.len() == 16)?;
    u64::from_str_radix(digits, 16).ok().map(f64::from_bits)
}

/// Words that are still to be read.
pub struct Words<'a> {
    rest: &'a [String],
}

impl<'a> Words<'a> {
    pub fn new(rest: &'a [String]) -> Self {
        Words { rest }
    }

    pub fn is_empty(&self) -> bool {
        self.rest.is_empty()
    }

    pub fn word(&mut self) -> Option<&'a str> {
        let (word, rest) = self.rest.split_first()?;
        self.rest = rest;
        Some(word)
    }

    pub fn whole<T: FromStr>(&mut self) -> Option<T> {
        self.word()?.parse().ok()
    }

    pub fn float(&mut self) -> Option<f64> {
        float_of(self.word()?)
    }

    pub fn floats<const N: usize>(&mut self) -> Option<[f64; N]> {
        let mut items = [0.0; N];
        for item in &mut items {
            *item = self.float()?;
        }
        Some(items)
    }

    /// Rows of as many numbers as there are rows.
    pub fn rows<const N: usize>(&mut self) -> Option<[[f64; N]; N]> {
        let mut rows = [[0.0; N]; N];
        for row in &mut rows {
            *row = self.floats()?;
        }
        Some(rows)
    }

    /// A dash, or what `item` reads.
    pub fn optional<T>(&mut self, item: impl Fn(&mut Self) -> Option<T>) -> Option<Option<T>> {
        if self.rest.first()? == "-" {
            self.rest = &self.rest[1..];
            return Some(None);
        }
        item(self).map(Some)
    }

    /// Items up to the last word.
    pub fn all<T>(&mut self, item: impl Fn(&mut Self) -> Option<T>) -> Option<Vec<T>> {
        let mut found = Vec::new();
        while !self.is_empty() {
            found.push(item(self)?);
        }
        Some(found)
    }
}

/// The case with one number made smaller: each number of its words in turn.
pub fn with_smaller_numbers<C: Case>(case: &C) -> impl Iterator<Item = C> {
    let words: Vec<String> = case.print().split(' ').map(str::to_string).collect();
    let all = words.clone().into_iter().enumerate();
    let changes = all.flat_map(|(place, word)| {
        let smaller = smaller_words(&word).into_iter();
        smaller.map(move |word| (place, word))
    });
    changes.filter_map(move |(place, word)| {
        let mut words = words.clone();
        words[place] = word;
        C::parse(&words)
    })
}

fn smaller_words(word: &str) -> Vec<String> {
    if let Some(x) = float_of(word) {
        return floats::smaller(x).into_iter().map(float).collect();
    }
    match word.parse::<i128>() {
        // Nearer to zero by all of it, by half, by a quarter and so on down to one.
        Ok(whole) => std::iter::successors(Some(whole), |step| Some(step / 2))
            .take_while(|step| *step != 0)
            .map(|step| (whole - step).to_string())
            .collect(),
        Err(_) => Vec::new(),
    }
}

/// Shorter lists: without each of its stretches, from halves down to single items.
pub fn shorter<T: Clone>(list: &[T]) -> impl Iterator<Item = Vec<T>> + '_ {
    let lengths = std::iter::successors(Some(list.len().div_ceil(2)), |length| {
        (*length > 1).then(|| length / 2)
    });
    let lengths = lengths.filter(|length| *length > 0);
    lengths.flat_map(move |length| {
        (0..list.len()).step_by(length).map(move |from| {
            let to = (from + length).min(list.len());
            [&list[..from], &list[to..]].concat()
        })
    })
}

/// Where two lists of replies part.
pub fn first_difference<R: Debug + PartialEq>(ours: &[R], theirs: &[R]) -> String {
    let shown = |list: &[R], step: usize| match list.get(step) {
        Some(reply) => format!("{reply:?}"),
        None => "no reply".to_string(),
    };
    let step = ours.iter().zip(theirs).take_while(|(a, b)| a == b).count();
    format!(
        "number {step} is the first that differs\nours   {}\noracle {}",
        shown(ours, step),
        shown(theirs, step)
    )
}
