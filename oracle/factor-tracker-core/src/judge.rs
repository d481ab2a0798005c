//! The Rust's parts with plain numbers in and out, refusals by the specification's number, and the few rules that
//! the specification adds to the Rust.

pub mod assignment;
pub mod detections;
pub mod filter;
pub mod flow;
pub mod lifecycle;
pub mod report;
pub mod sensors;
pub mod settings;
pub mod state;
pub mod tracker;

mod panics;
mod refusal;
mod shown;

/// Most rows and columns of a cost table, tracks, detections and candidates.
const PLACES: usize = 64;
