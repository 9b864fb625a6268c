//! One record of a log.

use crate::call::{self, RECORD_PLACES};
use std::error::Error;
use std::fmt;

/// What a 32-bit counter of milliseconds showed, which returns to 0 after 4,294,967,295.
///
/// It is neither a moment nor a length, and no monitor can be fed with it: [`judge`](crate::judge)
/// gives the records of a log their moments.
#[derive(Clone, Copy, Debug, PartialEq, Eq, Hash)]
pub struct Stamp(pub u32);

/// A record of a log.
#[derive(Clone, Copy, Debug, PartialEq, Eq, Hash)]
pub enum LogRecord {
    /// 1: a message at a moment.
    Message {
        /// The line that sent it.
        source: u8,
        /// The line that it was sent to.
        destination: u8,
        /// Which message it is.
        label: u16,
        /// Its moment.
        time: u32,
    },
    /// 2: time alone, up to a moment.
    Time {
        /// The moment.
        time: u32,
    },
    /// 3: a message with a raw stamp.
    RawMessage {
        /// The line that sent it.
        source: u8,
        /// The line that it was sent to.
        destination: u8,
        /// Which message it is.
        label: u16,
        /// What the counter showed.
        stamp: Stamp,
    },
    /// 4: time alone, with a raw stamp.
    RawTime {
        /// What the counter showed.
        stamp: Stamp,
    },
}

impl LogRecord {
    /// The record of a kind and its numbers; none for kind 0, the end.
    fn of([kind, source, destination, label, time]: [u64; 5]) -> Option<LogRecord> {
        let (source, destination, label) = (source as u8, destination as u8, label as u16);
        let (time, stamp) = (time as u32, Stamp(time as u32));
        match kind {
            0 => None,
            1 => Some(LogRecord::Message {
                source,
                destination,
                label,
                time,
            }),
            2 => Some(LogRecord::Time { time }),
            3 => Some(LogRecord::RawMessage {
                source,
                destination,
                label,
                stamp,
            }),
            _ => Some(LogRecord::RawTime { stamp }),
        }
    }
}

/// Why no record is read.
#[derive(Clone, Copy, Debug, PartialEq, Eq, Hash)]
pub enum RecordRefusal {
    /// 30: the log ends within the record.
    CutShort,
    /// 31: no record starts with this byte.
    UnknownByte,
}

impl RecordRefusal {
    /// The refusal's number.
    pub fn number(self) -> u8 {
        match self {
            RecordRefusal::CutShort => 30,
            RecordRefusal::UnknownByte => 31,
        }
    }

    fn of(number: u8) -> RecordRefusal {
        match number {
            30 => RecordRefusal::CutShort,
            _ => RecordRefusal::UnknownByte,
        }
    }
}

impl fmt::Display for RecordRefusal {
    fn fmt(&self, f: &mut fmt::Formatter<'_>) -> fmt::Result {
        let what = match self {
            RecordRefusal::CutShort => "the record is cut short",
            RecordRefusal::UnknownByte => "no record starts with this byte",
        };
        write!(f, "refused {}: {what}", self.number())
    }
}

impl Error for RecordRefusal {}

/// Reads the record at a place of a log: the record and the place just behind it, or none at the
/// log's end and beyond. Only this record is looked at: neither its time nor what stands before.
///
/// ```
/// use lsc::{read_record, LogRecord, RecordRefusal, Stamp};
///
/// let log = [4, 0xFF, 0xFF, 0xFF, 0xFF, 3, 0, 1, 0, 7, 0, 0, 0, 2];
/// let mut place = 0;
/// let mut stamps = Vec::new();
/// while let Some((record, behind)) = read_record(&log, place)? {
///     if let LogRecord::RawMessage { stamp, .. } | LogRecord::RawTime { stamp } = record {
///         stamps.push(stamp);
///     }
///     place = behind;
/// }
/// assert_eq!(stamps, [Stamp(u32::MAX), Stamp(2)]);
/// # Ok::<(), RecordRefusal>(())
/// ```
pub fn read_record(log: &[u8], place: usize) -> Result<Option<(LogRecord, usize)>, RecordRefusal> {
    let mut out = [0; RECORD_PLACES];
    match call::read_record(log, place, &mut out) {
        0 => {
            let [numbers @ .., behind] = out;
            Ok(LogRecord::of(numbers).map(|record| (record, behind as usize)))
        }
        number => Err(RecordRefusal::of(number)),
    }
}
