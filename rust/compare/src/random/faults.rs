//! Logs that often break their chart and often have faults, before the break, at it and behind it.

use super::logs::{break_after, records_from};
use super::stamps::{self, first_stamp, other_kind, stamped, Timed};
use super::Rng;
use crate::fast::State;
use lsc_reference::record::{LogRecord, RawRecord, Stamp};
use lsc_reference::value::*;

/// The longest gap that a raw log may have.
const LONGEST: u32 = stamps::LONGEST as u32;

/// A log over a chart, plain or raw: mostly with a message that breaks the chart, mostly with a
/// fault or two.
pub fn faulty_log_bytes(rng: &mut Rng, chart: &ChartValue, count: usize) -> Vec<u8> {
    let raw = rng.chance(50);
    let late = rng.chance(50);
    let start = if late {
        2 * LONGEST - rng.below(150) as u32
    } else {
        rng.below(20) as u32
    };
    let mut records = records_from(rng, chart, count, start);
    if rng.chance(75) {
        break_after(rng, chart, &State::FRESH, &mut records);
    }
    let list = if raw {
        let mut timed = Vec::new();
        if late {
            // No gap is too long, and little is left up to the last moment.
            let lead = [0, LONGEST, start].map(RecordValue::Time);
            timed.extend(lead.iter().map(Timed::of));
        }
        timed.extend(records.iter().map(Timed::of));
        stamped(first_stamp(rng), &timed)
    } else {
        records.into_iter().map(LogRecord::Plain).collect()
    };
    let mut pieces: Vec<Vec<u8>> = list.iter().map(LogRecord::to_bytes).collect();
    for _ in 0..rng.pick(&[0, 1, 1, 1, 2]) {
        put_fault(rng, &mut pieces);
    }
    pieces.concat()
}

/// Puts a fault before one of the pieces, in its place or behind all.
pub(super) fn put_fault(rng: &mut Rng, pieces: &mut Vec<Vec<u8>>) {
    let record = |piece: &Vec<u8>| LogRecord::from_bytes(piece);
    let place = rng.below(pieces.len() + 1);
    let before = pieces[..place].last().and_then(record);
    let Some(like) = pieces.get(place).and_then(record).or(before) else {
        return pieces.insert(place, vec![rng.pick(&[0, 1, 2, 3, 4, 5, 255])]);
    };
    let mut fault = match rng.below(10) {
        0..=1 => vec![rng.pick(&[0, 5, 16, 255])],
        2..=3 => other_kind(like).to_bytes(),
        4..=6 => falling(rng, like, before.unwrap_or(like)).to_bytes(),
        7..=8 => leaping(rng, like, before.unwrap_or(like)).to_bytes(),
        _ => like.to_bytes(),
    };
    match rng.below(10) {
        // Cut short: nothing comes behind it.
        0..=1 => {
            fault.truncate(1 + rng.below(fault.len()));
            pieces.truncate(place);
        }
        2..=3 if place < pieces.len() => {
            pieces.remove(place);
        }
        _ => {}
    }
    pieces.insert(place, fault);
}

/// The record with this time or stamp.
fn with_number(record: LogRecord, number: u32) -> LogRecord {
    match record {
        LogRecord::Plain(plain) => LogRecord::Plain(plain.with_time(number)),
        LogRecord::Raw(raw) => LogRecord::Raw(RawRecord {
            stamp: Stamp(number),
            ..raw
        }),
    }
}

/// The record's time or stamp.
fn number(record: LogRecord) -> u32 {
    match record {
        LogRecord::Plain(plain) => plain.time(),
        LogRecord::Raw(raw) => raw.stamp.0,
    }
}

/// The record a little earlier than another, or half round behind it.
fn falling(rng: &mut Rng, record: LogRecord, other: LogRecord) -> LogRecord {
    let ticks = rng.range(1, 3) as u32;
    let half = LONGEST + ticks;
    let falls = match record {
        LogRecord::Plain(_) => number(other).saturating_sub(ticks),
        LogRecord::Raw(_) if rng.chance(60) => number(other).wrapping_sub(ticks),
        LogRecord::Raw(_) => number(other).wrapping_add(half),
    };
    with_number(record, falls)
}

/// The record so long behind another that its moment may be too late.
fn leaping(rng: &mut Rng, record: LogRecord, other: LogRecord) -> LogRecord {
    let ticks = rng.pick(&[2, 150, 1_000, LONGEST]);
    with_number(record, number(other).wrapping_add(ticks))
}
