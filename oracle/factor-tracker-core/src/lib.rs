//! The Rust tracker as published: its files are copied to target/oracle/rust by oracle/build and stand here
//! unchanged. `judge` makes its parts callable with plain numbers, and answers with the specification's.

pub mod judge;

#[path = "../../../target/oracle/rust/assignment.rs"]
pub mod assignment;
#[path = "../../../target/oracle/rust/association.rs"]
pub mod association;
#[path = "../../../target/oracle/rust/error.rs"]
pub mod error;
#[path = "../../../target/oracle/rust/filter.rs"]
pub mod filter;
#[path = "../../../target/oracle/rust/lifecycle.rs"]
pub(crate) mod lifecycle;
pub mod math;
// The score test in it serves the 2D tracker only, which is not among the published files.
#[allow(dead_code)]
#[path = "../../../target/oracle/rust/tracker/mod.rs"]
pub mod tracker;
#[path = "../../../target/oracle/rust/types.rs"]
pub mod types;
