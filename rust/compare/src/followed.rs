//! Names for what feeding a live monitor from the bytes of a log came to.

use lsc_reference::feed_log::{Feeding, LogKind, KIND_SIZE, LOG_PLACES};
use lsc_reference::log::{read_record, Next};
use lsc_reference::record::LogRecord;
use lsc_reference::value::*;
use std::fmt;

/// The kind of the log before a call, and whether a record was taken in it.
#[derive(Clone, Copy, Debug, PartialEq, Eq, PartialOrd, Ord)]
pub enum Course {
    /// None was taken.
    NoRecord,
    Plain,
    Raw,
    /// The log's first record was.
    FirstPlain,
    FirstRaw,
    /// More were.
    MorePlain,
    MoreRaw,
}

impl Course {
    /// The course of a call by the kinds before and after it.
    fn of(before: LogKind, after: LogKind, taken: u64) -> Course {
        match (before, after, taken) {
            (LogKind::NoRecord, _, 0) => NoRecord,
            (LogKind::Plain, _, 0) => Plain,
            (LogKind::Raw(_), _, 0) => Raw,
            (LogKind::NoRecord, LogKind::Raw(_), _) => FirstRaw,
            (LogKind::NoRecord, ..) => FirstPlain,
            (LogKind::Plain, ..) => MorePlain,
            (LogKind::Raw(_), ..) => MoreRaw,
        }
    }
}

/// Where the stamp before a raw record comes from.
#[derive(Clone, Copy, Debug, PartialEq, Eq, PartialOrd, Ord)]
pub enum Since {
    /// Since the call before: it stood in the kind.
    Stored,
    Same,
}

/// What stands behind a break.
#[derive(Clone, Copy, Debug, PartialEq, Eq, PartialOrd, Ord)]
pub enum Behind {
    /// The end of the bytes, or what would be refused with this.
    Stop(u8),
    /// A record that would be taken.
    Sound,
}

/// What feeding came to.
#[derive(Clone, Copy, Debug, PartialEq, Eq, PartialOrd, Ord)]
pub enum Followed {
    /// Refused with 12: a kind of so many bytes, or so many places.
    ShortKind(usize),
    ShortPlaces(usize),
    /// Refused with 12, where longer buffers are refused with this.
    ShortBefore(u8),
    /// It stopped with this.
    Stopped(Course, u8),
    /// The last record was answered so; two of a call were.
    Last(u8),
    Twice(u8),
    /// Two stamps differ so much: taken, or refused with 22.
    Gap(Since, u64),
    /// A raw record is at this moment: taken, or refused with 24.
    Moment(Since, u64),
    /// A stamp below the one before it is taken.
    Wrap(Since),
    /// It was broken before the call; by a record of this one.
    BrokenAlready(Behind),
    BrokenNow(Behind),
    /// Anything else.
    Is(&'static str),
}

use Course::*;
use Followed::*;
use Since::*;

/// What a call must stop with.
#[rustfmt::skip]
pub const STOPPED: [Followed; 51] = [
    Stopped(NoRecord, 0), Stopped(NoRecord, 1), Stopped(NoRecord, 22), Stopped(NoRecord, 23),
    Stopped(NoRecord, 30), Stopped(NoRecord, 31),
    Stopped(Plain, 0), Stopped(Plain, 1), Stopped(Plain, 22), Stopped(Plain, 23),
    Stopped(Plain, 30), Stopped(Plain, 31), Stopped(Plain, 32),
    Stopped(Raw, 0), Stopped(Raw, 1), Stopped(Raw, 22), Stopped(Raw, 23), Stopped(Raw, 24),
    Stopped(Raw, 30), Stopped(Raw, 31), Stopped(Raw, 32),
    Stopped(FirstPlain, 0), Stopped(FirstPlain, 1), Stopped(FirstPlain, 22),
    Stopped(FirstPlain, 23), Stopped(FirstPlain, 30), Stopped(FirstPlain, 31),
    Stopped(FirstPlain, 32),
    Stopped(FirstRaw, 0), Stopped(FirstRaw, 1), Stopped(FirstRaw, 22), Stopped(FirstRaw, 23),
    Stopped(FirstRaw, 24), Stopped(FirstRaw, 30), Stopped(FirstRaw, 31), Stopped(FirstRaw, 32),
    Stopped(MorePlain, 0), Stopped(MorePlain, 1), Stopped(MorePlain, 22), Stopped(MorePlain, 23),
    Stopped(MorePlain, 30), Stopped(MorePlain, 31), Stopped(MorePlain, 32),
    Stopped(MoreRaw, 0), Stopped(MoreRaw, 1), Stopped(MoreRaw, 22), Stopped(MoreRaw, 23),
    Stopped(MoreRaw, 24), Stopped(MoreRaw, 30), Stopped(MoreRaw, 31), Stopped(MoreRaw, 32),
];

/// The longest gap that is taken; half round; the last moment.
const LONGEST: u64 = HALF - 1;
const HALF: u64 = 1 << 31;
const LAST: u64 = u32::MAX as u64;

/// What a call must come to beside it.
pub const FOLLOWED: [Followed; 54] = [
    Last(1),
    Last(2),
    Last(3),
    Last(4),
    Last(5),
    Last(6),
    Twice(2),
    Twice(3),
    Twice(4),
    Twice(5),
    Twice(6),
    Gap(Stored, LONGEST),
    Gap(Stored, HALF),
    Gap(Stored, LAST),
    Gap(Same, LONGEST),
    Gap(Same, HALF),
    Gap(Same, LAST),
    Moment(Stored, LAST),
    Moment(Stored, LAST + 1),
    Moment(Same, LAST),
    Moment(Same, LAST + 1),
    Wrap(Stored),
    Wrap(Same),
    BrokenAlready(Behind::Stop(0)),
    BrokenAlready(Behind::Stop(22)),
    BrokenAlready(Behind::Stop(23)),
    BrokenAlready(Behind::Stop(24)),
    BrokenAlready(Behind::Stop(30)),
    BrokenAlready(Behind::Stop(31)),
    BrokenAlready(Behind::Stop(32)),
    BrokenAlready(Behind::Sound),
    BrokenNow(Behind::Stop(0)),
    BrokenNow(Behind::Stop(22)),
    BrokenNow(Behind::Stop(23)),
    BrokenNow(Behind::Stop(24)),
    BrokenNow(Behind::Stop(30)),
    BrokenNow(Behind::Stop(31)),
    BrokenNow(Behind::Stop(32)),
    BrokenNow(Behind::Sound),
    Is("22 before 23, plain"),
    Is("22 before 23, raw"),
    Is("22 before 24"),
    Is("24 before 23"),
    Is("30 before 32"),
    Is("32 before 22"),
    Is("32 before 23"),
    Is("22, a first raw record after moment 0"),
    Is("23, a first raw record"),
    Is("a first plain record after moment 0"),
    Is("a first raw record of a monitor with records"),
    Is("bytes of a stamp with kind 0, none taken"),
    Is("bytes of a stamp with kind 0, plain taken"),
    Is("bytes of a stamp with kind 0, raw taken"),
    Is("bytes of a stamp with kind 1, taken"),
];

/// And what is refused before any record is read.
pub const REFUSED: [Followed; 7] = [
    ShortBefore(20),
    ShortBefore(21),
    Is("refusal 20"),
    Is("refusal 20, a kind above 2"),
    Is("refusal 21, the monitor"),
    Is("refusal 21, a kind above 2"),
    Is("refusal 21, both"),
];

/// Buffers that are too short, of every length.
pub fn shorts() -> [Followed; KIND_SIZE + LOG_PLACES] {
    std::array::from_fn(|place| match place.checked_sub(KIND_SIZE) {
        None => ShortKind(place),
        Some(places) => ShortPlaces(places),
    })
}

/// What following a log in parts must come to: the whole stops so, over several calls that take
/// records.
#[rustfmt::skip]
pub const PARTED: [Followed; 27] = [
    Stopped(MorePlain, 0), Stopped(MorePlain, 1), Stopped(MorePlain, 22), Stopped(MorePlain, 23),
    Stopped(MorePlain, 30), Stopped(MorePlain, 31), Stopped(MorePlain, 32),
    Stopped(MoreRaw, 0), Stopped(MoreRaw, 1), Stopped(MoreRaw, 22), Stopped(MoreRaw, 23),
    Stopped(MoreRaw, 24), Stopped(MoreRaw, 30), Stopped(MoreRaw, 31), Stopped(MoreRaw, 32),
    Is("a cut within a record"),
    Is("a cut between records"),
    Is("a part of no bytes"),
    Is("a record in three parts"),
    Is("broken before the last part"),
    Is("a wrap over a cut"),
    Is("each byte alone"),
    Is("asked: no"),
    Is("asked: yes"),
    Is("asked: refused"),
    Is("judged: the standing"),
    Is("judged: refused behind a break"),
];

/// What a call with a fit monitor and a kind that is not above 2 came to.
pub fn names(
    chart: &ChartValue,
    monitor: &MonitorValue,
    kind: [u8; KIND_SIZE],
    log: &[u8],
) -> Vec<Followed> {
    let Some(before) = LogKind::from_bytes(kind) else {
        return Vec::new();
    };
    let mut feeding = Feeding::of(chart, *monitor, before, log);
    let mut found = Vec::new();
    let mut answered = [0; 7];
    let (mut taken, mut last) = (0, 0);
    let stop = loop {
        let (now, kind, place) = (feeding.monitor.now, feeding.kind, feeding.place);
        let step = feeding.take();
        if let Next::Taken(record, _) = read_record(log, place) {
            let since = if taken == 0 { Stored } else { Same };
            found.extend(stamp_names(kind, now, &record, &step, since));
        }
        match step {
            Ok((_, answer)) => {
                last = answer.number();
                answered[usize::from(last)] += 1;
                taken += 1;
            }
            Err(number) => break number,
        }
    };
    found.push(Stopped(Course::of(before, feeding.kind, taken), stop));
    found.extend((taken > 0).then_some(Last(last)));
    let twice = (0..7).filter(|&number| answered[usize::from(number)] > 1);
    found.extend(twice.map(Twice));
    if stop == 1 {
        let behind = behind(chart, &feeding, log);
        found.push(match taken {
            0 => BrokenAlready(behind),
            _ => BrokenNow(behind),
        });
    }
    found.extend(order_names(&feeding, log, stop).into_iter().map(Is));
    found.extend(first_names(monitor, kind, before, &feeding, taken).map(Is));
    found
}

/// What the stamp of a record came to, which was taken or not.
fn stamp_names(
    kind: LogKind,
    now: u32,
    record: &LogRecord,
    step: &Result<(RecordValue, Answer), u8>,
    since: Since,
) -> Vec<Followed> {
    let (LogKind::Raw(before), LogRecord::Raw(record)) = (kind, record) else {
        return Vec::new();
    };
    let gap = record.stamp.since(before);
    let moment = u64::from(now) + gap;
    let names = match step {
        Ok(_) => {
            let wrap = (record.stamp.0 < before.0).then_some(Wrap(since));
            [Some(Gap(since, gap)), Some(Moment(since, moment)), wrap]
        }
        Err(22) => [Some(Gap(since, gap)), None, None],
        Err(24) => [Some(Moment(since, moment)), None, None],
        Err(_) => [None; 3],
    };
    let names = names.into_iter().flatten();
    names.filter(|name| FOLLOWED.contains(name)).collect()
}

/// What stands behind a break: what would come if there were none.
fn behind(chart: &ChartValue, feeding: &Feeding, log: &[u8]) -> Behind {
    let unbroken = MonitorValue {
        break_record: 0,
        reason: 0,
        cause: Cause::NONE,
        ..feeding.monitor
    };
    let rest = &log[feeding.place..];
    match Feeding::of(chart, unbroken, feeding.kind, rest).take() {
        Ok(_) => Behind::Sound,
        Err(number) => Behind::Stop(number),
    }
}

/// What else is wrong with the record that it stops at.
fn order_names(feeding: &Feeding, log: &[u8], stop: u8) -> Vec<&'static str> {
    let full = feeding.monitor.records == MAX_RECORDS;
    let now = feeding.monitor.now;
    let record = match read_record(log, feeding.place) {
        Next::Taken(record, _) => record,
        Next::Refused(30) if stop == 30 => {
            let raw = log[feeding.place] > 2;
            let other = match feeding.kind {
                LogKind::NoRecord => false,
                LogKind::Plain => raw,
                LogKind::Raw(_) => !raw,
            };
            return other.then_some("30 before 32").into_iter().collect();
        }
        _ => return Vec::new(),
    };
    let names = match (stop, feeding.kind, record) {
        (22, LogKind::NoRecord, LogRecord::Raw(_)) => {
            [Some("22, a first raw record after moment 0"), None]
        }
        (23, LogKind::NoRecord, LogRecord::Raw(_)) => [Some("23, a first raw record"), None],
        (22, LogKind::Raw(before), LogRecord::Raw(record)) => {
            let late = u64::from(now) + record.stamp.since(before) > LAST;
            [
                full.then_some("22 before 23, raw"),
                late.then_some("22 before 24"),
            ]
        }
        (22, ..) => [full.then_some("22 before 23, plain"), None],
        (24, ..) => [full.then_some("24 before 23"), None],
        (32, _, LogRecord::Plain(record)) => [
            (record.time() < now).then_some("32 before 22"),
            full.then_some("32 before 23"),
        ],
        (32, ..) => [full.then_some("32 before 23"), None],
        _ => [None; 2],
    };
    names.into_iter().flatten().collect()
}

/// What came of the kind before, and of a log's first record.
fn first_names(
    monitor: &MonitorValue,
    kind: [u8; KIND_SIZE],
    before: LogKind,
    feeding: &Feeding,
    taken: u64,
) -> impl Iterator<Item = &'static str> {
    let stamp = kind[1..] != [0; KIND_SIZE - 1];
    let left = match (before, feeding.kind) {
        (LogKind::NoRecord, LogKind::NoRecord) => Some("bytes of a stamp with kind 0, none taken"),
        (LogKind::NoRecord, LogKind::Plain) => Some("bytes of a stamp with kind 0, plain taken"),
        (LogKind::NoRecord, LogKind::Raw(_)) => Some("bytes of a stamp with kind 0, raw taken"),
        (LogKind::Plain, _) if taken > 0 => Some("bytes of a stamp with kind 1, taken"),
        _ => None,
    };
    let first = match (before, feeding.kind) {
        (LogKind::NoRecord, LogKind::Plain) if monitor.now > 0 => {
            Some("a first plain record after moment 0")
        }
        (LogKind::NoRecord, LogKind::Raw(_)) if monitor.records > 0 => {
            Some("a first raw record of a monitor with records")
        }
        _ => None,
    };
    [left.filter(|_| stamp), first].into_iter().flatten()
}

impl fmt::Display for Course {
    fn fmt(&self, f: &mut fmt::Formatter<'_>) -> fmt::Result {
        f.write_str(match self {
            NoRecord => "kind 0, none taken",
            Plain => "kind 1, none taken",
            Raw => "kind 2, none taken",
            FirstPlain => "a first plain record taken",
            FirstRaw => "a first raw record taken",
            MorePlain => "plain records taken",
            MoreRaw => "raw records taken",
        })
    }
}

impl fmt::Display for Since {
    fn fmt(&self, f: &mut fmt::Formatter<'_>) -> fmt::Result {
        f.write_str(match self {
            Stored => "from the kind",
            Same => "in a call",
        })
    }
}

impl fmt::Display for Behind {
    fn fmt(&self, f: &mut fmt::Formatter<'_>) -> fmt::Result {
        match self {
            Behind::Stop(0) => write!(f, "the end"),
            Behind::Stop(number) => write!(f, "what is {number}"),
            Behind::Sound => write!(f, "a sound record"),
        }
    }
}

impl fmt::Display for Followed {
    fn fmt(&self, f: &mut fmt::Formatter<'_>) -> fmt::Result {
        match self {
            ShortKind(1) => write!(f, "refusal 12, a kind of 1 byte"),
            ShortKind(length) => write!(f, "refusal 12, a kind of {length} bytes"),
            ShortPlaces(1) => write!(f, "refusal 12, 1 place"),
            ShortPlaces(places) => write!(f, "refusal 12, {places} places"),
            ShortBefore(number) => write!(f, "refusal 12 before {number}"),
            Stopped(course, number) => write!(f, "stops with {number}, {course}"),
            Last(answer) => write!(f, "last answer {answer}"),
            Twice(answer) => write!(f, "answer {answer} twice"),
            Gap(since, gap) => write!(f, "a gap of {gap} {since}"),
            Moment(since, moment) => write!(f, "moment {moment} {since}"),
            Wrap(since) => write!(f, "a wrap {since}"),
            BrokenAlready(behind) => write!(f, "broken already, before {behind}"),
            BrokenNow(behind) => write!(f, "broken now, before {behind}"),
            Is(name) => f.write_str(name),
        }
    }
}

#[cfg(test)]
mod tests {
    use super::*;
    use lsc_reference::examples::{headings, undo, CHART_U};
    use lsc_reference::log::write_log;
    use lsc_reference::monitor::feed;
    use lsc_reference::reader::read_chart;

    fn named(monitor: &MonitorValue, kind: [u8; 5], log: &[u8]) -> Vec<Followed> {
        names(&read_chart(&CHART_U).unwrap(), monitor, kind, log)
    }

    fn owed() -> MonitorValue {
        let chart = read_chart(&CHART_U).unwrap();
        feed(&chart, MonitorValue::ZERO, undo(9)).1
    }

    #[test]
    fn stops_and_answers_are_named() {
        let fresh = MonitorValue::ZERO;
        assert_eq!(named(&fresh, [0; 5], &[]), [Stopped(NoRecord, 0)]);
        let log = write_log(&[headings(1), headings(2), undo(3)]);
        let expected = [Stopped(FirstPlain, 0), Last(4), Twice(3)];
        assert_eq!(named(&fresh, [0; 5], &log), expected);
        let found = named(&fresh, [1, 0, 0, 0, 9], &log[..10]);
        let left = Is("bytes of a stamp with kind 1, taken");
        assert_eq!(found, [Stopped(MorePlain, 30), Last(3), left]);
        let first = Is("a first plain record after moment 0");
        let found = named(&owed(), [0; 5], &write_log(&[headings(9)]));
        assert_eq!(found, [Stopped(FirstPlain, 0), Last(5), first]);
        let broken = write_log(&[undo(9), undo(8)]);
        let found = named(&owed(), [1, 0, 0, 0, 0], &broken);
        let behind = BrokenNow(Behind::Stop(22));
        assert_eq!(found, [Stopped(MorePlain, 1), Last(1), behind]);
    }

    #[test]
    fn stamps_and_orders_are_named() {
        let raw = [2, 0xFF, 0xFF, 0xFF, 0xFF];
        let found = named(&owed(), raw, &[4, 0, 0, 0, 0, 4, 0x80, 0, 0, 0]);
        let expected = [Wrap(Stored), Gap(Same, HALF), Stopped(MoreRaw, 22), Last(6)];
        assert_eq!(found, expected);
        let found = named(&owed(), raw, &[2, 0, 0, 0, 8]);
        assert_eq!(found, [Stopped(Raw, 32), Is("32 before 22")]);
        let found = named(&owed(), raw, &[2, 0, 0, 0]);
        assert_eq!(found, [Stopped(Raw, 30), Is("30 before 32")]);
        let found = named(&owed(), [0, 1, 0, 0, 0], &[4, 0, 0, 0, 8]);
        let first = Is("22, a first raw record after moment 0");
        let left = Is("bytes of a stamp with kind 0, none taken");
        assert_eq!(found, [Stopped(NoRecord, 22), first, left]);
        let full = MonitorValue {
            records: MAX_RECORDS,
            now: u32::MAX,
            ..MonitorValue::ZERO
        };
        let found = named(&full, raw, &[4, 0, 0, 0, 0]);
        let late = Moment(Stored, LAST + 1);
        assert_eq!(found, [late, Stopped(Raw, 24), Is("24 before 23")]);
    }
}
