//! Logs with raw stamps, and logs that mix both kinds of record.

use super::logs::{chart_message, records, records_from, stray_message};
use super::Rng;
use lsc_reference::log::write_log;
use lsc_reference::record::{LogRecord, RawRecord, Stamp};
use lsc_reference::value::*;

/// The longest gap that a raw log may have.
pub(super) const LONGEST: u64 = (1 << 31) - 1;

/// True gaps at the limits. One of 2^32 + 5 looks like 5.
pub(super) const GAPS: [u64; 10] = [
    0,
    1,
    5,
    LONGEST - 1,
    LONGEST,
    LONGEST + 1,
    LONGEST + 2,
    (1 << 32) - 1,
    1 << 32,
    (1 << 32) + 5,
];

/// Moments about the last one.
pub(super) const ENDS: [u64; 6] = [
    (1 << 32) - 2,
    (1 << 32) - 1,
    (1 << 32) - 1,
    1 << 32,
    1 << 32,
    (1 << 32) + 1,
];

/// A record at a true time, which has more than 32 bits.
pub(super) struct Timed {
    message: Option<Message>,
    pub(super) time: u64,
}

impl Timed {
    /// The record at its time.
    pub(super) fn of(record: &RecordValue) -> Timed {
        Timed {
            message: record.message(),
            time: record.time().into(),
        }
    }
}

/// Random records over a chart with raw stamps, mostly without a fault.
fn raw_records(rng: &mut Rng, chart: &ChartValue, count: usize) -> Vec<LogRecord> {
    let mut timed: Vec<Timed> = records_from(rng, chart, count, 0)
        .iter()
        .map(Timed::of)
        .collect();
    match rng.below(10) {
        0..=5 => {}
        6..=7 => leap(rng, &mut timed),
        _ => reach_the_end(rng, chart, &mut timed),
    }
    stamped(first_stamp(rng), &timed)
}

/// The stamps of a counter that shows `first` at the first record.
pub(super) fn stamped(first: u32, timed: &[Timed]) -> Vec<LogRecord> {
    let start = timed.first().map_or(0, |record| record.time);
    let stamp = |time: u64| Stamp(first.wrapping_add((time - start) as u32));
    timed
        .iter()
        .map(|record| {
            LogRecord::Raw(RawRecord {
                message: record.message,
                stamp: stamp(record.time),
            })
        })
        .collect()
}

/// A stamp for a log's first record: anywhere, mostly a little before the wrap.
pub(super) fn first_stamp(rng: &mut Rng) -> u32 {
    match rng.below(10) {
        0 => 0,
        1..=2 => rng.draw() as u32,
        3 => rng.number(),
        _ => u32::MAX - rng.below(150) as u32,
    }
}

/// Makes the gap before a record so long; all later ones stay.
fn set_gap(timed: &mut [Timed], place: usize, gap: u64) {
    let old = timed[place].time - timed[place - 1].time;
    for record in &mut timed[place..] {
        record.time = record.time - old + gap;
    }
}

/// Makes some gaps such as stand at the limits.
pub(super) fn leap(rng: &mut Rng, timed: &mut [Timed]) {
    if timed.len() < 2 {
        return;
    }
    for _ in 0..1 + rng.below(2) {
        let place = 1 + rng.below(timed.len() - 1);
        set_gap(timed, place, rng.pick(&GAPS));
    }
}

/// Makes the gaps of three records so long that the last of them is about the last moment.
pub(super) fn reach_the_end(rng: &mut Rng, chart: &ChartValue, timed: &mut Vec<Timed>) {
    while timed.len() < 4 {
        let message = match rng.below(3) {
            0 => None,
            1 => stray_message(rng, chart, 0).message(),
            _ => chart_message(rng, chart, 0).message(),
        };
        let time = timed.last().map_or(0, |record| record.time);
        timed.push(Timed { message, time });
    }
    let place = 1 + rng.below(timed.len() - 3);
    let passed = timed[place - 1].time - timed[0].time;
    let mut left = rng.pick(&ENDS).saturating_sub(passed);
    for (turn, later) in [2, 1, 0].into_iter().enumerate() {
        let least = left.saturating_sub(later * LONGEST);
        let most = left.min(LONGEST);
        let gap = match rng.below(3) {
            0 => most,
            1 => least.min(most),
            _ => rng.range(least.min(most) as i64, most as i64) as u64,
        };
        set_gap(timed, place + turn, gap);
        left -= gap;
    }
}

/// The same records with, now and then, another stamp.
fn change_stamps(rng: &mut Rng, list: &mut [LogRecord]) {
    for record in list {
        if let LogRecord::Raw(RawRecord { stamp, .. }) = record {
            if rng.chance(4) {
                *stamp = Stamp(rng.number());
            } else if rng.chance(4) {
                *stamp = Stamp(stamp.0.wrapping_sub(1));
            }
        }
    }
}

/// The record of the other kind with the same number.
pub(super) fn other_kind(record: LogRecord) -> LogRecord {
    match record {
        LogRecord::Raw(raw) => LogRecord::Plain(raw.at(raw.stamp.0)),
        LogRecord::Plain(plain) => LogRecord::Raw(RawRecord {
            message: plain.message(),
            stamp: Stamp(plain.time()),
        }),
    }
}

/// Gives one record, or all from one on, the other kind.
fn mix(rng: &mut Rng, list: &mut [LogRecord]) {
    let place = rng.below(list.len());
    let end = if rng.chance(50) {
        list.len()
    } else {
        list.len().min(place + 1)
    };
    for record in &mut list[place..end] {
        *record = other_kind(*record);
    }
}

/// A log over a chart that mostly has no fault, plain or raw.
pub fn log_bytes(rng: &mut Rng, chart: &ChartValue, count: usize) -> Vec<u8> {
    if rng.chance(50) {
        write_log(&records(rng, chart, count))
    } else {
        written(&raw_records(rng, chart, count))
    }
}

/// A raw log over a chart with, now and then, a stamp that falls, or a log of both kinds.
pub fn raw_log_bytes(rng: &mut Rng, chart: &ChartValue, count: usize) -> Vec<u8> {
    let mut list = if rng.chance(70) {
        raw_records(rng, chart, count)
    } else {
        let plain = records(rng, chart, count);
        plain.into_iter().map(LogRecord::Plain).collect()
    };
    match rng.below(3) {
        0 => {}
        1 => change_stamps(rng, &mut list),
        _ => mix(rng, &mut list),
    }
    written(&list)
}

fn written(list: &[LogRecord]) -> Vec<u8> {
    list.iter().flat_map(LogRecord::to_bytes).collect()
}
