//! The judged Rust against the specification's worked cases and the corners that reading it brought up.

mod assignment;
mod errors;
mod filter;
mod lifecycle;
mod settings;
mod tracker;
