//! Calls of our programs that replay: the lines that they read and write, and how to run one.

pub mod calls;
pub mod detections;
pub mod filters;
mod line;
pub mod lines;
pub mod lives;
mod program;
pub mod sensors;
pub mod settings;
pub mod tables;

pub use line::Line;
pub use program::answers;
