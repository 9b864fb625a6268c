//! Safe calls of Silunovam, which watches programs by live sequence charts.
//!
//! A chart is a promise about messages between the parts of a program: whenever the prechart
//! was seen, the main chart comes next, in its order and in time. Given messages with their
//! times, the monitor finds how often the promise was kept, whether it is owed just now and may
//! rest there, and which record broke it. It is proved, and stands in the static libraries
//! `liblsc.a`, `liblsc_breaks.a`, `liblsc_live.a`, `liblsc_log.a` and `liblsc_more.a`: this crate
//! calls them and decides nothing by itself.
//!
//! [`judge`] takes a whole log, [`breaks`] says only whether it breaks the chart, [`read_record`]
//! reads one record of it. [`saved`] and [`write`] give a chart's bytes in one fixed form.
//! [`LiveMonitor`] takes one record at a time, or those that stand in the bytes of a log that has
//! come so far ([`LiveMonitor::feed_log`]), and shows beforehand what each of the chart's messages
//! would do:
//!
//! ```
//! use lsc::{Answer, Foreseen, LiveMonitor, Standing};
//!
//! // After an undo (label 1, line 0 to 1) both headings (label 2, 1 to 0) and references
//! // (label 3, 2 to 3) are restored, in any order, in at most 40 ticks.
//! let chart = [
//!     0x10, 4, 1, // 4 lines, 1 clock
//!     0x20, 0, 1, 0, 1, 0x40, 1, // prechart: undo resets clock 0
//!     0x50, // the main chart starts
//!     0x20, 1, 0, 0, 2, 0x30, 0, 1, 0, 0, 0, 40, 0x32, // headings, clock 0 <= 40, hot
//!     0x20, 2, 3, 0, 3, 0x30, 0, 1, 0, 0, 0, 40, 0x32, // references likewise
//!     0x7F,
//! ];
//! # assert_eq!(chart, lsc_reference::examples::CHART_U);
//! let mut monitor = LiveMonitor::open(&chart)?;
//! assert_eq!(monitor.feed_message(0, 1, 1, 100), Ok(Answer::Entered));
//! assert_eq!(monitor.feed_message(2, 3, 3, 120), Ok(Answer::Moved));
//! assert_eq!(monitor.standing().standing, Standing::Owed);
//!
//! // What undo, headings and references would do at 140: only headings are still owed.
//! let broken = Some(Foreseen::Broken);
//! assert_eq!(monitor.preview(140), Ok(vec![broken, Some(Foreseen::Kept), broken]));
//! assert_eq!(monitor.feed_message(1, 0, 2, 140), Ok(Answer::Kept));
//! assert_eq!(monitor.standing().to_string(), "0 1 0 3 0 0 0 0");
//!
//! // The same as a log: a record byte, the message, the time.
//! let log = [
//!     1, 0, 1, 0, 1, 0, 0, 0, 100, //
//!     1, 2, 3, 0, 3, 0, 0, 0, 120, //
//!     1, 1, 0, 0, 2, 0, 0, 0, 140,
//! ];
//! let verdict = lsc::judge(&chart, &log)?;
//! assert_eq!((verdict.standing, verdict.kept), (Standing::Open, 1));
//!
//! // Headings a tick later: the chart's second region breaks it, by its first term.
//! let mut late = log;
//! late[26] = 141;
//! let cause = lsc::judge(&chart, &late)?.cause.unwrap();
//! assert_eq!((cause.region, cause.term), (2, 1));
//!
//! // Only yes or no.
//! assert!(!lsc::breaks(&chart, &log)? && lsc::breaks(&chart, &late)?);
//!
//! // The first log as a counter of 32 bits shows it that returns to 0 at tick 116: raw records,
//! // 3 instead of 1, whose first is moment 0.
//! let raw = [
//!     3, 0, 1, 0, 1, 0xFF, 0xFF, 0xFF, 0xF0, //
//!     3, 2, 3, 0, 3, 0, 0, 0, 4, //
//!     3, 1, 0, 0, 2, 0, 0, 0, 24,
//! ];
//! assert_eq!(lsc::judge(&chart, &raw)?, verdict);
//!
//! // Saved, this chart has the bytes that it has already.
//! assert_eq!(lsc::saved(&chart)?, chart);
//!
//! // Command 33 marks headings and references as cold to rest on: once both have come, the chart
//! // may wait for the library's word (label 4, 3 to 2) as long as it likes.
//! let chart = [
//!     0x10, 4, 0, 0x20, 0, 1, 0, 1, 0x50, // undo
//!     0x20, 1, 0, 0, 2, 0x33, 0x20, 2, 3, 0, 3, 0x33, // headings, references
//!     0x20, 3, 2, 0, 4, 0x7F,
//! ];
//! let mut monitor = LiveMonitor::open(&chart)?;
//! let mut standing = |source, destination, label, time| {
//!     let answer = monitor.feed_message(source, destination, label, time);
//!     answer.map(|_| monitor.standing().standing)
//! };
//! assert_eq!(standing(0, 1, 1, 100), Ok(Standing::Owed));
//! assert_eq!(standing(1, 0, 2, 120), Ok(Standing::Owed));
//! assert_eq!(standing(2, 3, 3, 140), Ok(Standing::Resting));
//! assert_eq!(standing(3, 2, 4, 9_000), Ok(Standing::Open));
//! # Ok::<(), lsc::Refusal>(())
//! ```
#![deny(unsafe_code)]
#![warn(missing_docs)]

pub mod call;
mod following;
mod live;
#[allow(missing_docs)]
pub mod raw;
mod records;
mod saving;
mod values;

pub use following::{Counts, FedLog, LogKind, LogRefusal, Stop};
pub use live::LiveMonitor;
pub use records::{read_record, LogRecord, RecordRefusal, Stamp};
pub use saving::{saved, write, WriteRefusal};
pub use values::{Answer, Cause, FeedRefusal, Foreseen, Part, Reason, Refusal, Standing, Verdict};

use call::{BREAKS_PLACES, TEXT_ROOM, VERDICT_PLACES};

/// Judges a whole log by a chart; both as bytes.
///
/// The chart is read first. A fault anywhere in the log refuses it, after a break too.
pub fn judge(chart: &[u8], log: &[u8]) -> Result<Verdict, Refusal> {
    let mut out = [0; VERDICT_PLACES];
    match call::judge(chart, log, &mut out) {
        0 => Ok(Verdict::of(&out)),
        number => Err(Refusal::of(number, out[0], out[2])),
    }
}

/// Whether a log breaks a chart; both as bytes.
///
/// The chart is read first, then the log record by record, each checked and then taken, up to the
/// end or a break. A fault before a break is refused as [`judge`] refuses it; one behind a break is
/// not seen. For every log that [`judge`] accepts, this is whether its verdict is
/// [`Standing::Broken`].
pub fn breaks(chart: &[u8], log: &[u8]) -> Result<bool, Refusal> {
    let mut out = [0; BREAKS_PLACES];
    match call::breaks(chart, log, &mut out) {
        0 => Ok(out[0] == 1),
        number => Err(Refusal::of(number, out[0], out[2])),
    }
}

/// What the printing program prints for its input: 2 bytes with the chart's length, the chart,
/// the log.
pub fn print(input: &[u8]) -> String {
    let mut out = [0; TEXT_ROOM];
    let mut written = 0;
    call::print(input, &mut out, &mut written);
    let text = &out[..(written as usize).min(TEXT_ROOM)];
    text.iter().map(|&byte| char::from(byte)).collect()
}
