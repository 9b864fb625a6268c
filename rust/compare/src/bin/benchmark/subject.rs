//! A chart with its logs, and what is timed on them.

use lsc::call::{self, BREAKS_PLACES, VERDICT_PLACES};
use lsc_compare::charts;
use lsc_compare::fast;
use lsc_compare::testing;
use lsc_reference::log::read_log;
use lsc_reference::reader::read_chart;
use lsc_reference::value::{ChartValue, RecordValue};
use std::hint::black_box;

/// Counted rounds of every measurement.
pub const ROUNDS: usize = 31;
/// Records of the long logs.
pub const LONG: usize = 1_000_000;
/// Where a long log breaks midway, or a little later.
pub const MIDWAY: usize = LONG / 2;
/// Records of the lists fed one by one.
pub const FED: usize = 20_000;
/// Records in one call that feeds a log's bytes, by which these lists are cut too.
pub const BATCHES: [usize; 3] = [1, 10, 1_000];
/// Live monitors that are previewed.
pub const PREVIEWS: usize = 200;

/// A chart with a long log that keeps its rounds, the same with raw stamps, one that breaks as
/// early as it can, and one that breaks midway.
pub struct Subject {
    pub name: &'static str,
    pub chart: Vec<u8>,
    pub value: ChartValue,
    pub log: Vec<u8>,
    pub raw: Vec<u8>,
    pub broken: Vec<u8>,
    pub midway: Vec<u8>,
    pub records: Vec<RecordValue>,
}

impl Subject {
    pub fn of(name: &'static str, chart: Vec<u8>) -> Subject {
        let value = read_chart(&chart).expect("the chart is read");
        let log = charts::keeping_log(&value, LONG, 1);
        let raw = charts::raw_log(&log, u32::MAX - LONG as u32);
        let broken = charts::breaking_log(&value, &log, 0);
        let midway = charts::breaking_log(&value, &log, MIDWAY);
        let records = read_log(&log).expect("the log has no fault");
        Subject {
            name,
            chart,
            value,
            log,
            raw,
            broken,
            midway,
            records,
        }
    }

    /// The rounds that the log keeps and drops.
    pub fn rounds(&self) -> (u64, u64) {
        let mut out = [0; VERDICT_PLACES];
        call::judge(&self.chart, &self.log, &mut out);
        (out[1], out[2])
    }

    /// The log's first records, as bytes.
    pub fn first_records(&self, count: usize) -> &[u8] {
        &self.log[..length(&self.records[..count])]
    }

    /// The same with raw stamps.
    pub fn first_raw_records(&self, count: usize) -> &[u8] {
        &self.raw[..length(&self.records[..count])]
    }

    /// The bytes of the log's first records, plain or raw, cut behind each so many records.
    pub fn batches<'a>(&self, log: &'a [u8], count: usize) -> Vec<&'a [u8]> {
        let mut rest = log;
        let mut batches = Vec::new();
        for records in self.records.chunks(count) {
            let (batch, after) = rest.split_at(length(records).min(rest.len()));
            batches.push(batch);
            rest = after;
            if rest.is_empty() {
                break;
            }
        }
        batches
    }
}

/// The bytes that the records have in a log, plain or raw.
fn length(records: &[RecordValue]) -> usize {
    let lengths = records.iter().map(|record| match record {
        RecordValue::Message { .. } => 9,
        RecordValue::Time(_) => 5,
    });
    lengths.sum()
}

/// The proved judge.
pub fn proved(chart: &[u8], log: &[u8]) {
    let mut out = [0; VERDICT_PLACES];
    black_box(call::judge(black_box(chart), black_box(log), &mut out));
    black_box(out);
}

/// The fast judge beside it, from the chart's bytes: reading them is included.
pub fn reference(chart: &[u8], log: &[u8]) {
    let value = read_chart(black_box(chart)).expect("the chart is read");
    let _ = black_box(fast::judge(&value, black_box(log)));
}

/// The proved yes or no.
pub fn proved_breaks(chart: &[u8], log: &[u8]) {
    let mut out = [0; BREAKS_PLACES];
    black_box(call::breaks(black_box(chart), black_box(log), &mut out));
    black_box(out);
}

/// The fast yes or no beside it, likewise from the chart's bytes.
pub fn reference_breaks(chart: &[u8], log: &[u8]) {
    let value = read_chart(black_box(chart)).expect("the chart is read");
    let _ = black_box(fast::breaks(&value, black_box(log)));
}

/// The proved check of a log, without judging it.
pub fn check(log: &[u8]) {
    black_box(testing::check(black_box(log)));
}

/// The bare walk over a log.
pub fn scan(log: &[u8]) {
    black_box(fast::scan(black_box(log)));
}
