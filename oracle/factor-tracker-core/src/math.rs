//! The two files of the Rust's `math`; its own list of them is not among the published files.

#[path = "../../../target/oracle/rust/math/linalg.rs"]
pub mod linalg;
#[path = "../../../target/oracle/rust/math/models.rs"]
pub mod models;
