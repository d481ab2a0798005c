//! Runs of random cases, one place for all parts: progress, the smallest case that differs, a case alone.

mod counts;
mod part;
mod progress;
mod run;

pub use counts::Counts;
pub use part::{Case, Part};
pub use run::{brief, case, first, random};

#[cfg(test)]
mod tests;
