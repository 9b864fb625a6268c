//! A log that is followed as it grows: its kind so far, and what feeding some of its bytes came to.

use crate::call::{KIND_SIZE, LOG_PLACES};
use crate::records::Stamp;
use crate::values::Answer;
use std::error::Error;
use std::fmt;

/// The kind of a log so far, kept beside the [`LiveMonitor`](crate::LiveMonitor) that is fed from
/// it.
#[derive(Clone, Copy, Debug, Default, PartialEq, Eq, Hash)]
pub enum LogKind {
    /// 0: no record was taken yet.
    #[default]
    NoRecord,
    /// 1: its records have times.
    Plain,
    /// 2: its records have raw stamps.
    Raw {
        /// The stamp of the last one.
        last: Stamp,
    },
}

impl LogKind {
    /// The bytes to be stored: the kind's number, then the stamp, most significant byte first, or
    /// zeros.
    pub fn to_bytes(self) -> [u8; KIND_SIZE] {
        let (number, stamp) = match self {
            LogKind::NoRecord => (0, 0),
            LogKind::Plain => (1, 0),
            LogKind::Raw { last } => (2, last.0),
        };
        let [first, second, third, fourth] = stamp.to_be_bytes();
        [number, first, second, third, fourth]
    }

    /// The kind of such bytes; none if the number is above 2. Only a raw log's stamp is looked at.
    pub fn from_bytes([number, stamp @ ..]: [u8; KIND_SIZE]) -> Option<LogKind> {
        match number {
            0 => Some(LogKind::NoRecord),
            1 => Some(LogKind::Plain),
            2 => Some(LogKind::Raw {
                last: Stamp(u32::from_be_bytes(stamp)),
            }),
            _ => None,
        }
    }
}

/// How many records were answered so.
#[derive(Clone, Copy, Debug, Default, PartialEq, Eq, Hash)]
pub struct Counts {
    /// [`Answer::Broken`]: one at most.
    pub broken: u32,
    /// [`Answer::Kept`].
    pub kept: u32,
    /// [`Answer::Dropped`].
    pub dropped: u32,
    /// [`Answer::Entered`].
    pub entered: u32,
    /// [`Answer::Moved`].
    pub moved: u32,
    /// [`Answer::Quiet`].
    pub quiet: u32,
}

/// Why no more records were taken.
#[derive(Clone, Copy, Debug, PartialEq, Eq, Hash)]
pub enum Stop {
    /// 0: all bytes are read.
    End,
    /// 1: the chart is broken, by the last record taken or by an earlier one. What stands behind is
    /// not read.
    Broken,
    /// 30: the bytes end within a record. The rest of it is to come: the next bytes to be fed start
    /// with those from the place on.
    MoreToCome,
    /// The record at the place is refused.
    Refused(LogRefusal),
}

impl Stop {
    /// The number of it.
    pub fn number(self) -> u8 {
        match self {
            Stop::End => 0,
            Stop::Broken => 1,
            Stop::MoreToCome => 30,
            Stop::Refused(refusal) => refusal.number(),
        }
    }

    fn of(number: u8) -> Stop {
        match number {
            0 => Stop::End,
            1 => Stop::Broken,
            30 => Stop::MoreToCome,
            refused => Stop::Refused(LogRefusal::of(refused)),
        }
    }
}

/// Why a record of a log is not taken.
#[derive(Clone, Copy, Debug, PartialEq, Eq, Hash)]
pub enum LogRefusal {
    /// 22: the time is less than now, or the stamp differs from the one before by 2,147,483,648 or
    /// more.
    TimeFalls,
    /// 23: 1,000,000 records were taken.
    Full,
    /// 24: the moment of a raw stamp would be above 4,294,967,295.
    TooLate,
    /// 31: no record starts with this byte.
    UnknownByte,
    /// 32: a raw record in a plain log, or a plain one in a raw log.
    OtherKind,
}

impl LogRefusal {
    /// The refusal's number.
    pub fn number(self) -> u8 {
        match self {
            LogRefusal::TimeFalls => 22,
            LogRefusal::Full => 23,
            LogRefusal::TooLate => 24,
            LogRefusal::UnknownByte => 31,
            LogRefusal::OtherKind => 32,
        }
    }

    fn of(number: u8) -> LogRefusal {
        match number {
            22 => LogRefusal::TimeFalls,
            23 => LogRefusal::Full,
            24 => LogRefusal::TooLate,
            31 => LogRefusal::UnknownByte,
            _ => LogRefusal::OtherKind,
        }
    }
}

impl fmt::Display for LogRefusal {
    fn fmt(&self, f: &mut fmt::Formatter<'_>) -> fmt::Result {
        let what = match self {
            LogRefusal::TimeFalls => "the time falls",
            LogRefusal::Full => "1,000,000 records were taken",
            LogRefusal::TooLate => "the moment has more than 32 bits",
            LogRefusal::UnknownByte => "no record starts with this byte",
            LogRefusal::OtherKind => "raw and plain records in one log",
        };
        write!(f, "refused {}: {what}", self.number())
    }
}

impl Error for LogRefusal {}

/// What feeding the records of some bytes came to.
#[derive(Clone, Copy, Debug, PartialEq, Eq, Hash)]
pub struct FedLog {
    /// How many records were taken.
    pub taken: usize,
    /// The place in the bytes just behind the last of them, 0 if there is none. What is refused or
    /// cut short stands there.
    pub place: usize,
    /// The answer to the last of them.
    pub last: Option<Answer>,
    /// How many of them were answered how.
    pub counts: Counts,
    /// Why no more were taken.
    pub stop: Stop,
}

impl FedLog {
    /// The result of the number and the places that the library gives, and of the last answer.
    pub(crate) fn of(number: u8, out: &[u64; LOG_PLACES], last: Option<Answer>) -> FedLog {
        let [taken, place, _, counts @ ..] = *out;
        let [broken, kept, dropped, entered, moved, quiet] = counts.map(|count| count as u32);
        FedLog {
            taken: taken as usize,
            place: place as usize,
            last,
            counts: Counts {
                broken,
                kept,
                dropped,
                entered,
                moved,
                quiet,
            },
            stop: Stop::of(number),
        }
    }
}
