//! Logs of plain and of raw records.

use lsc_reference::examples::message;
use lsc_reference::record::{LogRecord, RawRecord, Stamp};
use lsc_reference::value::*;

/// 2,147,483,647, the longest gap that is taken.
pub const LONGEST: u32 = (1 << 31) - 1;
pub const HALF: u32 = 1 << 31;
pub const LAST: u32 = u32::MAX;

/// The record with its time as a raw stamp.
pub fn raw(record: RecordValue) -> LogRecord {
    LogRecord::Raw(RawRecord {
        message: record.message(),
        stamp: Stamp(record.time()),
    })
}

pub fn plain(record: RecordValue) -> LogRecord {
    LogRecord::Plain(record)
}

pub fn time(time: u32) -> RecordValue {
    RecordValue::Time(time)
}

/// A message that chart U has not.
pub fn foreign(time: u32) -> RecordValue {
    message(3, 2, 3, time)
}

/// The records as a log.
pub fn log(records: &[LogRecord]) -> Vec<u8> {
    records.iter().flat_map(LogRecord::to_bytes).collect()
}

/// The records as a raw log.
pub fn raw_log(records: &[RecordValue]) -> Vec<u8> {
    records
        .iter()
        .flat_map(|&record| raw(record).to_bytes())
        .collect()
}

/// Raw stamps of four records of time whose last moment is 4,294,967,295.
pub fn to_the_end(first: u32) -> [u32; 4] {
    [0, LONGEST, LAST - 1, LAST].map(|moment| first.wrapping_add(moment))
}
