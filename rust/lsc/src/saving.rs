//! Saving a chart.

use crate::call::{self, CHART_ROOM};
use crate::values::Refusal;
use std::error::Error;
use std::fmt;

/// Why a chart is not written.
#[derive(Clone, Copy, Debug, PartialEq, Eq, Hash)]
pub enum WriteRefusal {
    /// 1 to 11 and 13: the chart's bytes are refused.
    Chart(Refusal),
    /// 12: the buffer is too short.
    TooShort {
        /// The length that is enough.
        needed: usize,
    },
}

impl WriteRefusal {
    /// The refusal's number.
    pub fn number(self) -> u8 {
        match self {
            WriteRefusal::Chart(refusal) => refusal.number,
            WriteRefusal::TooShort { .. } => 12,
        }
    }
}

impl fmt::Display for WriteRefusal {
    fn fmt(&self, f: &mut fmt::Formatter<'_>) -> fmt::Result {
        match self {
            WriteRefusal::Chart(refusal) => refusal.fmt(f),
            WriteRefusal::TooShort { needed } => {
                write!(
                    f,
                    "refused 12: the buffer is too short, {needed} bytes are needed"
                )
            }
        }
    }
}

impl Error for WriteRefusal {}

/// Writes a chart, given as bytes, to the start of `out` in one fixed form, and answers the length
/// written. Later bytes stay as they were, and after a refusal all of them.
///
/// The regions keep their order. In each come its terms in their order, then the mark of a hot
/// condition, then the resets, then the mark of a region that is cold to rest on. So two charts are
/// the same exactly if the same bytes are written for them, and reading these gives the chart
/// again.
///
/// The chart is read first. [`CHART_ROOM`] bytes are enough for every chart.
///
/// ```
/// use lsc::WriteRefusal;
///
/// // The second region resets its clock before its term.
/// let chart = [
///     0x10, 2, 1, 0x20, 0, 1, 0, 1, 0x50, // heading, prechart, main chart
///     0x20, 1, 0, 0, 2, 0x40, 1, 0x30, 0, 1, 0, 0, 0, 9, 0x7F,
/// ];
/// let mut out = [0; 30];
/// assert_eq!(lsc::write(&chart, &mut out), Ok(24));
/// assert_eq!(out[14..24], [0x30, 0, 1, 0, 0, 0, 9, 0x40, 1, 0x7F]);
///
/// let short = lsc::write(&chart, &mut out[..23]);
/// assert_eq!(short, Err(WriteRefusal::TooShort { needed: 24 }));
/// ```
pub fn write(chart: &[u8], out: &mut [u8]) -> Result<usize, WriteRefusal> {
    let mut at = 0;
    match call::write(chart, out, &mut at) {
        0 => Ok(at as usize),
        12 => Err(WriteRefusal::TooShort {
            needed: at as usize,
        }),
        number => Err(WriteRefusal::Chart(Refusal::of_chart(number, at))),
    }
}

/// The bytes that [`write`] writes for a chart, or the chart's refusal.
pub fn saved(chart: &[u8]) -> Result<Vec<u8>, Refusal> {
    let (mut out, mut at) = (vec![0; CHART_ROOM], 0);
    match call::write(chart, &mut out, &mut at) {
        0 => {
            out.truncate(at as usize);
            Ok(out)
        }
        number => Err(Refusal::of_chart(number, at)),
    }
}
