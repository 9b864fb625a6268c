//! Seeded random inputs, plausible and damaged, and the shrinking of failing ones.

mod after;
mod charts;
mod faults;
mod hostile;
mod logs;
mod pieces;
mod rewrites;
mod rng;
mod shrink;
mod stamps;
mod values;

pub use after::{kind_bytes, log_after};
pub use charts::{chart, some_size, Size};
pub use faults::faulty_log_bytes;
pub use hostile::{damage, hostile_chart_bytes, hostile_input, hostile_log_bytes};
pub use logs::{feeds, records};
pub use pieces::{commands, log_pieces};
pub use rewrites::{altered, reordered, unmarked};
pub use rng::Rng;
pub use shrink::shrink;
pub use stamps::log_bytes;
pub use values::{chart_value, moment, monitor_value, reached_monitor, record_value};
