//! Verdicts, answers and refusals.

use crate::call::VERDICT_PLACES;
use std::error::Error;
use std::fmt;

/// How a chart stands.
#[derive(Clone, Copy, Debug, PartialEq, Eq, Hash)]
pub enum Standing {
    /// 0: nothing is fired.
    Open,
    /// 1: a round runs, in the prechart.
    Prechart,
    /// 2: the prechart is complete, the main chart is owed, and may not rest here.
    Owed,
    /// 3: broken, for good.
    Broken,
    /// 4: the prechart is complete, the main chart is owed, and may rest here: on every line that
    /// still has an unfired region of the main chart, the last fired one is marked as cold to rest
    /// on.
    Resting,
}

impl Standing {
    /// The number that the verdict prints.
    pub fn number(self) -> u8 {
        match self {
            Standing::Open => 0,
            Standing::Prechart => 1,
            Standing::Owed => 2,
            Standing::Broken => 3,
            Standing::Resting => 4,
        }
    }

    fn of(number: u64) -> Standing {
        match number {
            0 => Standing::Open,
            1 => Standing::Prechart,
            2 => Standing::Owed,
            4 => Standing::Resting,
            _ => Standing::Broken,
        }
    }
}

/// Why a chart is broken.
#[derive(Clone, Copy, Debug, PartialEq, Eq, Hash)]
pub enum Reason {
    /// 1: a message of the chart came out of order.
    NoReadyRegion,
    /// 2: a hot condition failed.
    ConditionFails,
}

impl Reason {
    /// The number that the verdict prints.
    pub fn number(self) -> u8 {
        match self {
            Reason::NoReadyRegion => 1,
            Reason::ConditionFails => 2,
        }
    }

    /// The reason of a number that is not 0.
    pub(crate) fn of(number: u64) -> Reason {
        match number {
            1 => Reason::NoReadyRegion,
            _ => Reason::ConditionFails,
        }
    }
}

/// The condition that decided, as a place in the chart.
#[derive(Clone, Copy, Debug, PartialEq, Eq, Hash)]
pub struct Cause {
    /// Its region, counted from 1 in the order of the chart's bytes, both halves together.
    pub region: u8,
    /// The first of its terms that failed, counted from 1 in that order.
    pub term: u8,
}

impl Cause {
    /// The cause of two numbers; none of zeros.
    pub(crate) fn of(region: u64, term: u64) -> Option<Cause> {
        (region != 0).then_some(Cause {
            region: region as u8,
            term: term as u8,
        })
    }
}

impl fmt::Display for Cause {
    fn fmt(&self, f: &mut fmt::Formatter<'_>) -> fmt::Result {
        write!(f, "region {}, term {}", self.region, self.term)
    }
}

/// What is known after a log, or so far.
#[derive(Clone, Copy, Debug, PartialEq, Eq, Hash)]
pub struct Verdict {
    /// How the chart stands.
    pub standing: Standing,
    /// Rounds kept.
    pub kept: u32,
    /// Rounds dropped; a record can drop two.
    pub dropped: u32,
    /// Records taken; one that broke the chart is the last of them.
    pub records: u32,
    /// The record that broke the chart, counted from 1; 0 if none did.
    pub break_record: u32,
    /// Why it broke the chart; none if no record did.
    pub reason: Option<Reason>,
    /// The hot condition that broke the chart; none unless one did.
    pub cause: Option<Cause>,
}

impl Verdict {
    pub(crate) fn of(out: &[u64; VERDICT_PLACES]) -> Verdict {
        Verdict {
            standing: Standing::of(out[0]),
            kept: out[1] as u32,
            dropped: out[2] as u32,
            records: out[3] as u32,
            break_record: out[4] as u32,
            reason: (out[5] != 0).then(|| Reason::of(out[5])),
            cause: Cause::of(out[6], out[7]),
        }
    }
}

/// The eight numbers in the printing program's order.
impl fmt::Display for Verdict {
    fn fmt(&self, f: &mut fmt::Formatter<'_>) -> fmt::Result {
        let reason = self.reason.map_or(0, Reason::number);
        let (region, term) = self
            .cause
            .map_or((0, 0), |known| (known.region, known.term));
        write!(
            f,
            "{} {} {} {} {} {reason} {region} {term}",
            self.standing.number(),
            self.kept,
            self.dropped,
            self.records,
            self.break_record
        )
    }
}

/// What a record did.
#[derive(Clone, Copy, Debug, PartialEq, Eq, Hash)]
pub enum Answer {
    /// The chart is broken, by this record or an earlier one.
    Broken {
        /// The record that broke it, counted from 1.
        record: u32,
        /// Why.
        reason: Reason,
    },
    /// The round is complete.
    Kept,
    /// The round is given up.
    Dropped,
    /// The prechart is complete, the round runs on.
    Entered,
    /// Something fired, perhaps after the message dropped a round and in the next one.
    Moved,
    /// Nothing fired.
    Quiet,
}

impl fmt::Display for Answer {
    fn fmt(&self, f: &mut fmt::Formatter<'_>) -> fmt::Result {
        match self {
            Answer::Broken { record, reason } => {
                write!(f, "broken at record {record}, reason {}", reason.number())
            }
            Answer::Kept => f.write_str("kept"),
            Answer::Dropped => f.write_str("dropped"),
            Answer::Entered => f.write_str("entered"),
            Answer::Moved => f.write_str("moved"),
            Answer::Quiet => f.write_str("quiet"),
        }
    }
}

/// What a message would do: the answers that a message of the chart can have.
#[derive(Clone, Copy, Debug, PartialEq, Eq, Hash)]
pub enum Foreseen {
    /// 1: the chart would be broken, or is already.
    Broken,
    /// 2: the round would be complete.
    Kept,
    /// 3: the round would be given up.
    Dropped,
    /// 4: the prechart would be complete, and the round run on.
    Entered,
    /// 5: something would fire, perhaps after the message dropped a round and in the next one.
    Moved,
}

impl Foreseen {
    /// The answer's number.
    pub fn number(self) -> u8 {
        match self {
            Foreseen::Broken => 1,
            Foreseen::Kept => 2,
            Foreseen::Dropped => 3,
            Foreseen::Entered => 4,
            Foreseen::Moved => 5,
        }
    }

    /// What a byte of a preview says; none for a plain region's.
    pub(crate) fn of(byte: u8) -> Option<Foreseen> {
        match byte {
            1 => Some(Foreseen::Broken),
            2 => Some(Foreseen::Kept),
            3 => Some(Foreseen::Dropped),
            4 => Some(Foreseen::Entered),
            5 => Some(Foreseen::Moved),
            _ => None,
        }
    }
}

impl fmt::Display for Foreseen {
    fn fmt(&self, f: &mut fmt::Formatter<'_>) -> fmt::Result {
        f.write_str(match self {
            Foreseen::Broken => "broken",
            Foreseen::Kept => "kept",
            Foreseen::Dropped => "dropped",
            Foreseen::Entered => "entered",
            Foreseen::Moved => "moved",
        })
    }
}

/// Which part of the input is refused.
#[derive(Clone, Copy, Debug, PartialEq, Eq, Hash)]
pub enum Part {
    /// The chart's bytes, numbers 1 to 11 and 13.
    Chart,
    /// The log's bytes, numbers 22, 23, 24, 30, 31, 32.
    Log,
}

/// Refused bytes: the fault's number, and where it stands in its part.
#[derive(Clone, Copy, Debug, PartialEq, Eq, Hash)]
pub struct Refusal {
    /// The part at fault.
    pub part: Part,
    /// The fault's number.
    pub number: u8,
    /// The offset within the part.
    pub offset: usize,
}

impl Refusal {
    /// The refusal of the number, the part and the offset that the library gives.
    pub(crate) fn of(number: u8, part: u64, offset: u64) -> Refusal {
        Refusal {
            part: if part == 1 { Part::Chart } else { Part::Log },
            number,
            offset: offset as usize,
        }
    }

    /// The refusal of a chart's bytes.
    pub(crate) fn of_chart(number: u8, offset: u64) -> Refusal {
        Refusal {
            part: Part::Chart,
            number,
            offset: offset as usize,
        }
    }
}

impl fmt::Display for Refusal {
    fn fmt(&self, f: &mut fmt::Formatter<'_>) -> fmt::Result {
        let part = match self.part {
            Part::Chart => "chart",
            Part::Log => "log",
        };
        write!(f, "refused {part} {} at {}", self.number, self.offset)
    }
}

impl Error for Refusal {}

/// A record, a moment, or bytes for a live monitor, that are refused.
#[derive(Clone, Copy, Debug, PartialEq, Eq, Hash)]
pub enum FeedRefusal {
    /// 20: the bytes hold no live monitor.
    NoLiveMonitor,
    /// 21: the monitor in the bytes is not fit.
    Unfit,
    /// 22: the time is less than now.
    TimeFalls,
    /// 23: 1,000,000 records were taken.
    Full,
}

impl FeedRefusal {
    /// The refusal's number.
    pub fn number(self) -> u8 {
        match self {
            FeedRefusal::NoLiveMonitor => 20,
            FeedRefusal::Unfit => 21,
            FeedRefusal::TimeFalls => 22,
            FeedRefusal::Full => 23,
        }
    }

    pub(crate) fn of(number: u8) -> FeedRefusal {
        match number {
            21 => FeedRefusal::Unfit,
            22 => FeedRefusal::TimeFalls,
            23 => FeedRefusal::Full,
            _ => FeedRefusal::NoLiveMonitor,
        }
    }
}

impl fmt::Display for FeedRefusal {
    fn fmt(&self, f: &mut fmt::Formatter<'_>) -> fmt::Result {
        let what = match self {
            FeedRefusal::NoLiveMonitor => "the bytes hold no live monitor",
            FeedRefusal::Unfit => "the monitor is unfit",
            FeedRefusal::TimeFalls => "the time falls",
            FeedRefusal::Full => "1,000,000 records were taken",
        };
        write!(f, "refused {}: {what}", self.number())
    }
}

impl Error for FeedRefusal {}
