//! The functions that our archives export, as Rust functions: what C sees, and nothing of how they work.

#[cfg(feature = "pikowhanu")]
pub mod pikowhanu;
#[cfg(feature = "probe")]
pub mod probe;
#[cfg(feature = "tracker")]
pub mod tracker;
