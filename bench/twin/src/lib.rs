//! The engine once more in ordinary Rust, with no proof, for speed: to compare figures and time with.
#![forbid(unsafe_code)]

pub mod problem;
pub mod scale;
pub mod solve;

pub use problem::{Problem, Refusal};
pub use scale::{Capped, Measuring, Points, Ranked, Scale, Weakest};
pub use solve::{Report, bounded_solve, straight_solve};
