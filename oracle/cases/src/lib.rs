//! The inputs of each part, with the oracle's reply to them.

pub mod assignment;
pub mod calls;
pub mod detections;
pub mod far;
pub mod filter;
pub mod least;
pub mod lifecycle;
pub mod line;
pub mod root;
pub mod sensors;
pub mod settings;

mod covariances;
mod floats;
mod words;

#[cfg(test)]
mod tests;
