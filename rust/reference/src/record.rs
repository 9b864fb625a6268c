//! Records as a log has them, with a time or with a raw stamp, and their bytes.

use crate::value::{Message, RecordValue};

/// What a 32-bit counter of milliseconds showed, which returns to 0 after 4,294,967,295. It is
/// neither a moment nor a length.
#[derive(Clone, Copy, Debug, PartialEq, Eq)]
pub struct Stamp(pub u32);

/// A message, or time alone, with a raw stamp. Only its log gives it a moment, and feeding takes
/// moments:
///
/// ```compile_fail
/// use lsc_reference::{monitor::feed, record::*, value::*};
/// let raw = RawRecord { message: None, stamp: Stamp(0) };
/// feed(&ChartValue::ZERO, MonitorValue::ZERO, raw);
/// ```
#[derive(Clone, Copy, Debug, PartialEq, Eq)]
pub struct RawRecord {
    pub message: Option<Message>,
    pub stamp: Stamp,
}

/// A record of a log.
#[derive(Clone, Copy, Debug, PartialEq, Eq)]
pub enum LogRecord {
    Plain(RecordValue),
    Raw(RawRecord),
}

impl Stamp {
    /// The ticks from an earlier stamp to this one, taken round the wrap.
    pub fn since(self, earlier: Stamp) -> u64 {
        (u64::from(self.0) + (1 << 32) - u64::from(earlier.0)) % (1 << 32)
    }
}

impl RawRecord {
    /// The record at the moment that its log gives it.
    pub fn at(&self, moment: u32) -> RecordValue {
        RecordValue::of(self.message, moment)
    }
}

impl LogRecord {
    /// The bytes of L1 and L2: the record's byte, its message if it has one, its time or stamp.
    pub fn to_bytes(&self) -> Vec<u8> {
        let (of_message, of_time, message, number) = match self {
            LogRecord::Plain(record) => (1, 2, record.message(), record.time()),
            LogRecord::Raw(record) => (3, 4, record.message, record.stamp.0),
        };
        let mut bytes = Vec::new();
        match message {
            Some(message) => {
                bytes.push(of_message);
                bytes.extend(message.to_bytes());
            }
            None => bytes.push(of_time),
        }
        bytes.extend(number.to_be_bytes());
        bytes
    }

    /// The record of such bytes; none if the length or the record byte is wrong.
    pub fn from_bytes(bytes: &[u8]) -> Option<LogRecord> {
        let (&kind, rest) = bytes.split_first()?;
        let (message, number) = match kind {
            1 | 3 => {
                let (message, number) = rest.split_first_chunk()?;
                (Some(Message::from_bytes(*message)), number)
            }
            2 | 4 => (None, rest),
            _ => return None,
        };
        let number = u32::from_be_bytes(number.try_into().ok()?);
        Some(match kind {
            1 | 2 => LogRecord::Plain(RecordValue::of(message, number)),
            _ => LogRecord::Raw(RawRecord {
                message,
                stamp: Stamp(number),
            }),
        })
    }
}
