//! Logs that go on from where a monitor and the kind of its log are.

use super::faults::put_fault;
use super::logs::{break_after, gap, records_after};
use super::stamps::{first_stamp, leap, other_kind, reach_the_end, stamped, Timed, ENDS, GAPS};
use super::Rng;
use crate::fast::State;
use lsc_reference::feed_log::{LogKind, KIND_SIZE};
use lsc_reference::monitor::is_fit;
use lsc_reference::record::{LogRecord, Stamp};
use lsc_reference::value::*;

/// The bytes of a log's kind, seldom above 2, seldom with a stamp that does not count.
pub fn kind_bytes(rng: &mut Rng) -> [u8; KIND_SIZE] {
    let number = match rng.below(40) {
        0 => rng.pick(&[3, 4, 128, 255]),
        1..=15 => 0,
        16..=26 => 1,
        _ => 2,
    };
    let mut bytes = [number, 0, 0, 0, 0];
    if number == 2 || rng.chance(15) {
        bytes[1..].copy_from_slice(&first_stamp(rng).to_be_bytes());
    }
    bytes
}

/// A log that goes on so over a chart, mostly of the kind that it has, now and then with a message
/// that breaks the chart, with a fault or two.
pub fn log_after(
    rng: &mut Rng,
    chart: &ChartValue,
    monitor: &MonitorValue,
    kind: LogKind,
    count: usize,
) -> Vec<u8> {
    let state = if is_fit(chart, monitor) {
        State::of(monitor)
    } else {
        State::FRESH
    };
    let wild = rng.chance(5);
    let start = match rng.below(4) {
        0 => monitor.now.saturating_add(gap(rng, wild)),
        _ => monitor.now,
    };
    let mut records = records_after(rng, chart, &state, count, start);
    if rng.chance(40) {
        break_after(rng, chart, &state, &mut records);
    }
    let raw = match kind {
        LogKind::NoRecord => rng.chance(50),
        LogKind::Plain => false,
        LogKind::Raw(_) => true,
    };
    let mut list = if raw {
        stamps_after(rng, chart, monitor.now, kind, &records)
    } else {
        records.into_iter().map(LogRecord::Plain).collect()
    };
    if rng.chance(4) {
        for record in &mut list {
            *record = other_kind(*record);
        }
    }
    let mut pieces: Vec<Vec<u8>> = list.iter().map(LogRecord::to_bytes).collect();
    for _ in 0..rng.pick(&[0, 0, 0, 1, 1, 2]) {
        put_fault(rng, &mut pieces);
    }
    let mut bytes = pieces.concat();
    if rng.chance(10) {
        bytes.truncate(rng.below(bytes.len() + 1));
    }
    bytes
}

/// The records with raw stamps that go on from the last one of the kind, now and then at the limits
/// of what is taken.
fn stamps_after(
    rng: &mut Rng,
    chart: &ChartValue,
    now: u32,
    kind: LogKind,
    records: &[RecordValue],
) -> Vec<LogRecord> {
    let mut timed: Vec<Timed> = records.iter().map(Timed::of).collect();
    match rng.below(10) {
        0..=6 => {}
        7..=8 => leap(rng, &mut timed),
        _ => reach_the_end(rng, chart, &mut timed),
    }
    let LogKind::Raw(Stamp(last)) = kind else {
        return stamped(first_stamp(rng), &timed);
    };
    let now = u64::from(now);
    let lead = match rng.below(10) {
        0 => rng.pick(&GAPS),
        1 => rng.pick(&ENDS).saturating_sub(now),
        _ => timed
            .first()
            .map_or(0, |first| first.time.saturating_sub(now)),
    };
    stamped(last.wrapping_add(lead as u32), &timed)
}
