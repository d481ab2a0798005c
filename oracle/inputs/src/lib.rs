//! Random numbers and the inputs that comparisons, benchmarks and recorded answers share.

mod random;
pub mod roots;

pub use random::Random;
