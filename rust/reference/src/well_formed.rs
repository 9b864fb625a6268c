//! Refusal 20 (M4): a value that the reader never gives.

use crate::reader::read_chart;
use crate::value::ChartValue;
use crate::writer::chart_bytes;

/// Whether some bytes are read as this value (M4): writing it and reading it gives it back.
pub fn is_given(chart: &ChartValue) -> bool {
    match chart_bytes(chart) {
        None => false,
        Some(bytes) => read_chart(&bytes) == Ok(*chart),
    }
}
