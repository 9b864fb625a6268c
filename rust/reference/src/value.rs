//! Charts, monitors, records and answers as plain values.

use crate::record::LogRecord;

/// C1.
pub const MAX_LINES: u8 = 16;
/// C3.
pub const MAX_REGIONS: usize = 32;
/// C9.
pub const MAX_TERMS: usize = 4;
/// C2.
pub const MAX_CLOCKS: usize = 8;
/// The records that can be taken; the next is refused with 23 (M12, J3).
pub const MAX_RECORDS: u32 = 1_000_000;

/// What a term compares (C10): a clock, or the first less the second.
#[derive(Clone, Copy, Debug, PartialEq, Eq)]
pub enum LeftValue {
    Clock(u8),
    Difference(u8, u8),
}

/// A term (C10). The relation is a number of B2.
#[derive(Clone, Copy, Debug, PartialEq, Eq)]
pub struct TermValue {
    pub left: LeftValue,
    pub relation: u8,
    pub n: i32,
}

/// A message (C5). Equal ones are the same (C8).
#[derive(Clone, Copy, Debug, PartialEq, Eq)]
pub struct Message {
    pub source: u8,
    pub destination: u8,
    pub label: u16,
}

/// What a region waits for.
#[derive(Clone, Copy, Debug, PartialEq, Eq)]
pub enum EventValue {
    Message(Message),
    /// A set of lines (N4).
    Plain(u16),
}

/// A region as M2 has it. Its resets are a set of clocks (N4).
#[derive(Clone, Copy, Debug, PartialEq, Eq)]
pub struct RegionValue {
    pub event: EventValue,
    pub terms: [TermValue; MAX_TERMS],
    pub term_count: u8,
    pub hot: bool,
    pub resets: u8,
    /// The mark of C20: cold to rest on. The condition's heat is another thing.
    pub rest: bool,
}

/// A chart. The first `prechart` regions are the prechart, the rest up to `count` the main
/// chart; places after `count` are unused.
#[derive(Clone, Copy, Debug, PartialEq, Eq)]
pub struct ChartValue {
    pub lines: u8,
    pub clocks: u8,
    pub prechart: u8,
    pub count: u8,
    pub regions: [RegionValue; MAX_REGIONS],
}

/// Why a round is broken.
#[derive(Clone, Copy, Debug, PartialEq, Eq)]
pub enum Reason {
    /// T19: no ready region has the chart message.
    NoReadyRegion = 1,
    /// T21: a hot condition fails.
    ConditionFails = 2,
}

/// The condition that decided: its region and its first failing term, both from 1. Zeros where
/// no condition did.
#[derive(Clone, Copy, Debug, PartialEq, Eq)]
pub struct Cause {
    pub region: u8,
    pub term: u8,
}

/// What a break stores (T23).
#[derive(Clone, Copy, Debug, PartialEq, Eq)]
pub struct Break {
    pub record: u32,
    pub reason: Reason,
    pub cause: Cause,
}

/// What a monitor holds (T1, M9).
#[derive(Clone, Copy, Debug, PartialEq, Eq)]
pub struct MonitorValue {
    /// Bit i is region i + 1.
    pub fired: u32,
    pub resets: [u32; MAX_CLOCKS],
    pub now: u32,
    pub records: u32,
    pub kept: u32,
    pub dropped: u32,
    pub break_record: u32,
    /// A reason's number, zero if none; an unfit monitor may have any.
    pub reason: u8,
    /// Zeros unless a condition broke the round; an unfit monitor may have any.
    pub cause: Cause,
}

/// A record as feeding takes it: its time is a moment (C15).
#[derive(Clone, Copy, Debug, PartialEq, Eq)]
pub enum RecordValue {
    Message { message: Message, time: u32 },
    Time(u32),
}

/// What feeding says: a refusal (M12), or an answer, in the order of T27. Only the answer tells
/// why a round was dropped.
#[derive(Clone, Copy, Debug, PartialEq, Eq)]
pub enum Answer {
    Refused(u8),
    Broken(Break),
    Kept,
    Dropped(Cause),
    Entered,
    Moved,
    Quiet,
}

impl Message {
    /// The message as it stands in charts (B1) and logs (L1).
    pub const fn to_bytes(self) -> [u8; 4] {
        let [high, low] = self.label.to_be_bytes();
        [self.source, self.destination, high, low]
    }

    /// The message of such bytes.
    pub const fn from_bytes([source, destination, high, low]: [u8; 4]) -> Message {
        Message {
            source,
            destination,
            label: u16::from_be_bytes([high, low]),
        }
    }

    /// The record of this message at a time.
    pub const fn at(self, time: u32) -> RecordValue {
        RecordValue::Message {
            message: self,
            time,
        }
    }
}

impl EventValue {
    /// Whether a region with this event touches the line (C7).
    pub fn touches(&self, line: u8) -> bool {
        match *self {
            EventValue::Message(message) => line == message.source || line == message.destination,
            EventValue::Plain(lines) => (lines >> line) & 1 == 1,
        }
    }

    /// Whether both touch a common line (O1).
    pub fn shares_line_with(&self, other: &EventValue) -> bool {
        (0..MAX_LINES).any(|line| self.touches(line) && other.touches(line))
    }
}

impl Reason {
    pub fn number(self) -> u8 {
        self as u8
    }

    /// The reason of a number; none but 1 and 2 have one.
    pub fn of(number: u8) -> Option<Reason> {
        [Reason::NoReadyRegion, Reason::ConditionFails]
            .into_iter()
            .find(|reason| reason.number() == number)
    }
}

impl Cause {
    /// No condition decided.
    pub const NONE: Cause = Cause { region: 0, term: 0 };

    /// The cause for places that count from 0.
    pub fn at(region: usize, term: usize) -> Cause {
        Cause {
            region: region as u8 + 1,
            term: term as u8 + 1,
        }
    }

    /// Whether it names one of the chart's regions and one of that region's terms.
    pub fn is_of(&self, chart: &ChartValue) -> bool {
        let regions = &chart.regions[..usize::from(chart.count)];
        (1..)
            .zip(regions)
            .any(|(number, region)| number == self.region && region.has_term(self.term))
    }
}

impl Break {
    /// The break as T1 has it, its reason as a number: zeros while there is none.
    pub fn numbers(broken: Option<Break>) -> (u32, u8, Cause) {
        match broken {
            Some(known) => (known.record, known.reason.number(), known.cause),
            None => (0, 0, Cause::NONE),
        }
    }
}

impl Answer {
    /// The number of an answer (T27): 1 to 6, or the refusal's.
    pub fn number(&self) -> u8 {
        match self {
            Answer::Refused(number) => *number,
            Answer::Broken(_) => 1,
            Answer::Kept => 2,
            Answer::Dropped(_) => 3,
            Answer::Entered => 4,
            Answer::Moved => 5,
            Answer::Quiet => 6,
        }
    }

    /// The region and the term that the answer carries: zeros unless it is broken or dropped.
    pub fn cause(&self) -> Cause {
        match self {
            Answer::Broken(known) => known.cause,
            Answer::Dropped(cause) => *cause,
            _ => Cause::NONE,
        }
    }
}

impl TermValue {
    pub const ZERO: TermValue = TermValue {
        left: LeftValue::Clock(0),
        relation: 0,
        n: 0,
    };

    /// Whether the term holds for these values of the clocks (C12, T5).
    pub fn holds(&self, value: impl Fn(u8) -> i64) -> bool {
        let left = match self.left {
            LeftValue::Clock(clock) => value(clock),
            LeftValue::Difference(first, second) => value(first) - value(second),
        };
        let n = i64::from(self.n);
        match self.relation {
            0 => left < n,
            1 => left <= n,
            2 => left == n,
            3 => left >= n,
            4 => left > n,
            _ => false,
        }
    }
}

impl RegionValue {
    pub const ZERO: RegionValue = RegionValue {
        event: EventValue::Plain(0),
        terms: [TermValue::ZERO; MAX_TERMS],
        term_count: 0,
        hot: false,
        resets: 0,
        rest: false,
    };

    /// The region's message; none for a plain region.
    pub fn message(&self) -> Option<Message> {
        match self.event {
            EventValue::Message(message) => Some(message),
            EventValue::Plain(_) => None,
        }
    }

    /// The condition's terms.
    pub fn condition(&self) -> &[TermValue] {
        &self.terms[..usize::from(self.term_count)]
    }

    /// Whether the region has a term of this number, from 1.
    fn has_term(&self, number: u8) -> bool {
        (1..=self.term_count).contains(&number)
    }
}

impl ChartValue {
    /// The chart of zeros (M3), which comes with every refusal (R3).
    pub const ZERO: ChartValue = ChartValue {
        lines: 0,
        clocks: 0,
        prechart: 0,
        count: 0,
        regions: [RegionValue::ZERO; MAX_REGIONS],
    };
}

impl MonitorValue {
    /// A fresh monitor (T2); refusal 20 has the same with it (M8).
    pub const ZERO: MonitorValue = MonitorValue {
        fired: 0,
        resets: [0; MAX_CLOCKS],
        now: 0,
        records: 0,
        kept: 0,
        dropped: 0,
        break_record: 0,
        reason: 0,
        cause: Cause::NONE,
    };

    /// The break of a fit monitor.
    pub fn broken(&self) -> Option<Break> {
        Reason::of(self.reason).map(|reason| Break {
            record: self.break_record,
            reason,
            cause: self.cause,
        })
    }
}

impl RecordValue {
    /// The message at a time, or time alone.
    pub fn of(message: Option<Message>, time: u32) -> RecordValue {
        match message {
            Some(message) => message.at(time),
            None => RecordValue::Time(time),
        }
    }

    /// The record's time.
    pub fn time(&self) -> u32 {
        match *self {
            RecordValue::Message { time, .. } => time,
            RecordValue::Time(time) => time,
        }
    }

    /// The record's message; none for a record of time.
    pub fn message(&self) -> Option<Message> {
        match *self {
            RecordValue::Message { message, .. } => Some(message),
            RecordValue::Time(_) => None,
        }
    }

    /// The record at another time.
    pub fn with_time(self, time: u32) -> RecordValue {
        RecordValue::of(self.message(), time)
    }

    /// The bytes of a plain record (L1, L2).
    pub fn to_bytes(&self) -> Vec<u8> {
        LogRecord::Plain(*self).to_bytes()
    }

    /// The record of such bytes; none of any others, a raw record's too.
    pub fn from_bytes(bytes: &[u8]) -> Option<RecordValue> {
        match LogRecord::from_bytes(bytes)? {
            LogRecord::Plain(record) => Some(record),
            LogRecord::Raw(_) => None,
        }
    }
}
