//! Rows and stretches (W) by brute force: every row of regions is tried.
//!
//! `rows` has W1 to W9, `stretches` the rest. Nothing here uses the monitor's steps.

mod rows;
mod stretches;

pub use rows::Rows;
pub use stretches::{Ended, Meaning};
