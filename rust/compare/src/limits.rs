//! Fixed inputs at the limits: 1,000,000 records, plain and raw, that break or not, previews after
//! them, logs that are followed up to them, twice as many rounds, the longest input, the longest
//! chart, the last regions and lines that may be rested on, sizes that overflow.

use crate::charts;
use crate::difference::{same, Both, Difference};
use crate::image::{live_bytes, Image, LIVE_HEAD};
use crate::kinds::{
    compare_breaks, compare_bytes, compare_feed_log, compare_judge, compare_live, compare_parts,
    compare_preview, compare_print, compare_save, compare_save_image, compare_values, Compare,
};
use crate::random::{self, Rng};
use crate::seen::Seen;
use lsc::call;
use lsc_reference::examples::{longest, message, undo, CHART_U, WIDEST};
use lsc_reference::print::input_of;
use lsc_reference::reader::read_chart;
use lsc_reference::record::{LogRecord, RawRecord, Stamp};
use lsc_reference::value::*;

/// A name, a comparison, and the input's two parts.
type Case = (&'static str, Compare, Vec<u8>, Vec<u8>);

/// Compares every fixed input.
pub fn run(seen: &mut Seen) -> Result<(), Box<Difference>> {
    let mut cases = judged();
    cases.extend(judged_raw());
    cases.extend(asked());
    cases.extend(printed());
    cases.extend(fed());
    cases.extend(fed_twice());
    cases.extend(previewed());
    cases.extend(followed());
    cases.extend(followed_to_the_end());
    cases.extend(saved());
    cases.extend(rested());
    cases.push(("live sizes", live_sizes, Vec::new(), Vec::new()));
    for (name, compare, first, second) in cases {
        compare(&first, &second, seen).map_err(|both| {
            Box::new(Difference {
                kind: name,
                origin: None,
                parts: [("first", first), ("second", second)],
                both,
            })
        })?;
        seen.input("limits");
    }
    Ok(())
}

/// Logs of 1,000,000 and of 1,000,001 records, with a falling time before and after; and one in
/// which all but the first are offered twice.
fn judged() -> Vec<Case> {
    let chart = read_chart(&CHART_U).expect("chart U is read");
    let full = charts::keeping_log(&chart, MAX_RECORDS as usize, 3);
    let with = |time: u32| [&full[..], &RecordValue::Time(time).to_bytes()].concat();
    let cut = |mut log: Vec<u8>| {
        log.pop();
        log
    };
    let last = RecordValue::Time(u32::MAX).to_bytes();
    let logs = [
        ("1,000,000 records", full.clone()),
        ("1,000,001", with(u32::MAX)),
        ("falls at 1,000,001", with(0)),
        ("cut at 1,000,001", cut(with(0))),
        ("the latest time", last),
    ];
    let case = |(name, log)| -> Case { (name, compare_judge, CHART_U.to_vec(), log) };
    let mut cases: Vec<Case> = logs.map(case).into();
    let again = message(0, 1, 1, 7).to_bytes().repeat(MAX_RECORDS as usize);
    let chart = charts::TWO_THEN_ONE.to_vec();
    cases.push(("999,999 second offers", compare_judge, chart, again));
    cases
}

/// A record of time with a raw stamp.
fn stamp(stamp: u32) -> Vec<u8> {
    let record = RawRecord {
        message: None,
        stamp: Stamp(stamp),
    };
    LogRecord::Raw(record).to_bytes()
}

/// Logs of 1,000,000 and of 1,000,001 raw records: rounds across the wrap, and moments up to the
/// last one. The record beyond comes too late, falls, is plain, is cut, or is only too many.
fn judged_raw() -> Vec<Case> {
    let chart = read_chart(&CHART_U).expect("chart U is read");
    let plain = charts::keeping_log(&chart, MAX_RECORDS as usize, 4);
    let rounds = charts::raw_log(&plain, u32::MAX - 1_000);
    // Gaps of 2^31 - 1, 2^31 - 1 and 1 after 999,997 records at moment 0.
    let mut full = stamp(9).repeat(MAX_RECORDS as usize - 3);
    full.extend([stamp(0x8000_0008), stamp(7), stamp(8)].concat());
    let with = |log: &[u8], last: &[u8]| [log, last].concat();
    let time = RecordValue::Time(u32::MAX).to_bytes();
    let logs = [
        ("1,000,000 raw records", rounds.clone()),
        ("raw after 1,000,000 plain", with(&plain, &stamp(u32::MAX))),
        ("plain after 1,000,000 raw", with(&rounds, &time)),
        ("raw up to the last moment", full.clone()),
        ("1,000,001 raw records", with(&full, &stamp(8))),
        ("too late at 1,000,001", with(&full, &stamp(9))),
        ("a raw fall at 1,000,001", with(&full, &stamp(7))),
        ("half round at 1,000,001", with(&full, &stamp(0x8000_0008))),
        ("raw, cut at 1,000,001", with(&full, &stamp(7)[..4])),
    ];
    let case = |(name, log)| -> Case { (name, compare_judge, CHART_U.to_vec(), log) };
    logs.map(case).into()
}

/// Logs of 1,000,000 and of 1,000,001 records, plain and raw, that break at record 2, at record
/// 1,000,000 and nowhere. The record beyond falls, is cut, would break, or is only too many.
fn asked() -> Vec<Case> {
    let mut cases = asked_of(LogRecord::Plain);
    cases.extend(asked_of(|record| {
        LogRecord::Raw(RawRecord {
            message: record.message(),
            stamp: Stamp(record.time()),
        })
    }));
    cases
}

/// These logs of one kind.
fn asked_of(kind: fn(RecordValue) -> LogRecord) -> Vec<Case> {
    let time = kind(RecordValue::Time(5)).to_bytes();
    let fall = kind(RecordValue::Time(4)).to_bytes();
    let first = kind(undo(5)).to_bytes();
    let times = |fewer: usize| time.repeat(MAX_RECORDS as usize - fewer);
    let full = times(0);
    let owed = [&times(1)[..], &first].concat();
    let early = [&first[..], &first, &times(2)].concat();
    let last = [&times(2)[..], &first, &first].concat();
    let with = |log: &[u8], last: &[u8]| [log, last].concat();
    let logs = [
        ("no break in 1,000,000", full.clone()),
        ("1,000,001, no break", with(&full, &time)),
        ("no break, falls at 1,000,001", with(&full, &fall)),
        ("no break, cut at 1,000,001", with(&full, &time[..4])),
        ("would break at 1,000,001", with(&owed, &first)),
        ("breaks at 2 of 1,000,001", with(&early, &time)),
        ("breaks at 1,000,000", last.clone()),
        ("breaks at 1,000,000 of 1,000,001", with(&last, &time)),
    ];
    let case = |(name, log)| -> Case { (name, compare_breaks, CHART_U.to_vec(), log) };
    logs.map(case).into()
}

/// Inputs about 65,536 bytes long, and short ones.
fn printed() -> Vec<Case> {
    let mut cases: Vec<Case> = Vec::new();
    for length in [65_535, 65_536, 65_537, 70_000] {
        let mut input = input_of(&CHART_U, &[]);
        while input.len() + 5 <= length {
            input.extend(RecordValue::Time(7).to_bytes());
        }
        let mut ragged = input.clone();
        ragged.resize(length, 2);
        cases.push(("a long input", compare_print, Vec::new(), input));
        cases.push(("a long input, cut", compare_print, Vec::new(), ragged));
    }
    for input in [&[][..], &[0], &[0, 0], &[0, 1], &[0, 1, 0x10], &[255; 9]] {
        cases.push(("a short input", compare_print, Vec::new(), input.to_vec()));
    }
    cases
}

/// A record fed to a monitor of a chart, as images and as live bytes.
fn both_ways(chart: &[u8], monitor: &MonitorValue, record: &RecordValue) -> [Case; 2] {
    let value = read_chart(chart).expect("the chart is read");
    let second = [&monitor.to_image()[..], &record.to_bytes()].concat();
    let image = value.to_image().to_vec();
    let live = live_bytes(chart, monitor);
    [
        ("an image at a limit", compare_values, image, second),
        (
            "live bytes at a limit",
            compare_bytes,
            live,
            record.to_bytes(),
        ),
    ]
}

/// Monitors with 999,999, 1,000,000 and 1,000,001 records.
fn fed() -> Vec<Case> {
    let mut cases: Vec<Case> = Vec::new();
    for records in [999_999, 1_000_000, 1_000_001] {
        let monitor = MonitorValue {
            records,
            now: 10,
            ..MonitorValue::ZERO
        };
        for record in [undo(10), RecordValue::Time(11), RecordValue::Time(9)] {
            cases.extend(both_ways(&CHART_U, &monitor, &record));
        }
    }
    cases
}

/// Monitors with up to twice as many rounds as records, and with more, in an unfinished prechart:
/// the record drops and moves, drops twice, or drops and fits nothing.
fn fed_twice() -> Vec<Case> {
    let mut cases: Vec<Case> = Vec::new();
    for (kept, dropped) in [
        (0, 0),
        (999_999, 999_998),
        (999_999, 999_999),
        (1_000_000, 999_999),
        (0, 1_999_999),
        (u32::MAX, 1),
        (1 << 31, 1 << 31),
        (2, u32::MAX),
    ] {
        let monitor = MonitorValue {
            records: 999_999,
            kept,
            dropped,
            ..MonitorValue::ZERO
        };
        for (fired, record) in [
            (0b001, message(0, 1, 1, 7)),
            (0b110, message(2, 3, 2, 7)),
            (0b110, message(1, 2, 3, 7)),
        ] {
            let monitor = MonitorValue { fired, ..monitor };
            cases.extend(both_ways(&charts::TWO_OPENINGS, &monitor, &record));
        }
    }
    cases
}

/// Monitors with 999,999, 1,000,000 and 1,000,001 records, at the opening, owed and broken; at
/// moments before now, now and later.
fn previewed() -> Vec<Case> {
    let mut cases: Vec<Case> = Vec::new();
    for records in [999_999, 1_000_000, 1_000_001] {
        for (fired, break_record, reason) in [(0, 0, 0), (1, 0, 0), (1, 7, 1), (1, 1_000_000, 1)] {
            let monitor = MonitorValue {
                fired,
                records,
                now: 10,
                break_record,
                reason,
                ..MonitorValue::ZERO
            };
            let live = live_bytes(&CHART_U, &monitor);
            for time in [0u32, 9, 10, 11, u32::MAX] {
                let (name, moment) = ("a preview at a limit", time.to_be_bytes().to_vec());
                cases.push((name, compare_preview, live.clone(), moment));
            }
        }
    }
    cases
}

/// A log of 1,000,000 records and one more, and a raw one of 100,000, that are followed from a
/// fresh monitor on; shorter ones in parts.
fn followed() -> Vec<Case> {
    let chart = read_chart(&CHART_U).expect("chart U is read");
    let fresh = live_bytes(&CHART_U, &MonitorValue::ZERO);
    let plain = charts::keeping_log(&chart, MAX_RECORDS as usize, 5);
    let rounds = charts::keeping_log(&chart, 100_000, 5);
    let rounds = charts::raw_log(&rounds, u32::MAX - 1_000);
    let more = RecordValue::Time(u32::MAX).to_bytes();
    let start = |log: &[u8]| [&[0; 5], log].concat();
    let mut cases: Vec<Case> = Vec::new();
    for (name, log) in [
        ("1,000,001 records followed", [&plain[..], &more].concat()),
        ("100,000 raw records followed", rounds),
    ] {
        cases.push((name, compare_feed_log, fresh.clone(), start(&log)));
    }
    let plain = charts::keeping_log(&chart, 2_000, 6);
    let broken = charts::breaking_log(&chart, &plain, 1_900);
    let rounds = charts::raw_log(&plain, u32::MAX - 1_000);
    for (name, log) in [
        ("2,000 records in parts", &plain),
        ("a break in parts", &broken),
        ("2,000 raw records in parts", &rounds),
    ] {
        cases.push((name, compare_parts, fresh.clone(), start(log)));
    }
    cases
}

/// Monitors with 999,998 to 1,000,001 records, owed and broken, early and at the last moments, and
/// logs of each kind that go on from there by two records, the last of them sound or not.
fn followed_to_the_end() -> Vec<Case> {
    let mut cases: Vec<Case> = Vec::new();
    for (records, broken) in [
        (999_998, false),
        (999_999, false),
        (1_000_000, false),
        (1_000_000, true),
        (1_000_001, false),
    ] {
        for now in [0, 10, u32::MAX - 1, u32::MAX] {
            let monitor = MonitorValue {
                fired: 1,
                records,
                now,
                break_record: if broken { 7 } else { 0 },
                reason: broken.into(),
                ..MonitorValue::ZERO
            };
            let live = live_bytes(&CHART_U, &monitor);
            for kind in [[0; 5], [1, 0, 0, 0, 0], [2, 0, 0, 0, 9], [3, 0, 0, 0, 9]] {
                for second in logs_after(now) {
                    let second = [&kind[..], &second].concat();
                    for compare in [compare_feed_log, compare_parts] {
                        let name = "a followed log at a limit";
                        cases.push((name, compare, live.clone(), second.clone()));
                    }
                }
            }
        }
    }
    cases
}

/// Logs that go on from now, or from stamp 9: a message, and then another, time that passes or
/// falls, a long gap, a record of the other kind, one that is cut and an unknown byte.
fn logs_after(now: u32) -> Vec<Vec<u8>> {
    let last = |kind: fn(RecordValue) -> LogRecord, now: u32| {
        let time = |time: u32| kind(RecordValue::Time(time)).to_bytes();
        let half = now.wrapping_add(1 << 31);
        vec![
            Vec::new(),
            kind(undo(now)).to_bytes(),
            time(now),
            time(now.wrapping_add(1)),
            time(now.wrapping_sub(1)),
            time(half.wrapping_sub(1)),
            time(half),
            RecordValue::Time(now).to_bytes(),
            stamp(now),
            time(now)[..4].to_vec(),
            vec![5],
        ]
    };
    let raw = |record: RecordValue| {
        LogRecord::Raw(RawRecord {
            message: record.message(),
            stamp: Stamp(record.time()),
        })
    };
    let mut logs = Vec::new();
    for (kind, number) in [
        (LogRecord::Plain as fn(RecordValue) -> LogRecord, now),
        (raw, 9),
    ] {
        let message = kind(message(1, 0, 2, number)).to_bytes();
        for last in last(kind, number) {
            logs.push(last.clone());
            logs.push([&message[..], &last].concat());
        }
    }
    logs
}

/// The longest chart, in the order that it is saved in and in another, by its image, and with the
/// last byte missing or one too many; the widest chart, and one with every region used.
fn saved() -> Vec<Case> {
    let bytes = longest();
    let other = random::reordered(&mut Rng::new(1), &bytes);
    let image = read_chart(&bytes).map(|chart| chart.to_image().to_vec());
    let image = image.expect("the longest chart is read");
    let cut = bytes[..bytes.len() - 1].to_vec();
    let more = [&bytes[..], &[0x7F]].concat();
    let contents = vec![0; bytes.len()];
    vec![
        ("the longest chart", compare_save, bytes, other),
        ("it by image", compare_save_image, image, contents),
        ("it cut, and with more", compare_save, cut, more),
        ("a wide one", compare_save, WIDEST.to_vec(), charts::large()),
    ]
}

/// A chart of so many lines with these main regions, each with its mark; its messages are labelled
/// by their places.
fn resting_chart(lines: u8, regions: &[([u8; 2], bool)]) -> Vec<u8> {
    let mut bytes = vec![0x10, lines, 0, 0x50];
    for (label, ([source, destination], mark)) in (1..).zip(regions) {
        bytes.extend([0x20, *source, *destination, 0, label]);
        bytes.extend(mark.then_some(0x33));
    }
    bytes.push(0x7F);
    bytes
}

/// All 32 regions on two lines, of which region 31 alone is marked, or all others. Sixteen lines,
/// two messages on each pair of them, of which the first ones are marked, or all but the last.
fn rested() -> Vec<Case> {
    let mut cases: Vec<Case> = Vec::new();
    for flag in [false, true] {
        let regions: Vec<_> = (1..=32).map(|n| ([0, 1], (n == 31) == flag)).collect();
        let pairs = (0..16).map(|n| [2 * (n % 8), 2 * (n % 8) + 1]);
        let marks = (0..16).map(|n| n < 7 || (n == 7 && flag));
        let wide: Vec<_> = pairs.zip(marks).collect();
        for (lines, regions) in [(2, regions), (16, wide)] {
            let sent = (1..).zip(&regions);
            let log =
                sent.flat_map(|(label, ([from, to], _))| message(*from, *to, label, 7).to_bytes());
            let (chart, log) = (resting_chart(lines, &regions), log.collect::<Vec<u8>>());
            for records in 0..=regions.len() {
                let log = log[..9 * records].to_vec();
                cases.push(("resting at a limit", compare_judge, chart.clone(), log));
            }
            cases.push(("resting at a limit, live", compare_live, chart, log));
        }
    }
    cases
}

/// V9, for lengths at both ends.
fn live_sizes(_: &[u8], _: &[u8], _: &mut Seen) -> Result<(), Both> {
    let near = (0..70).map(|less| usize::MAX - less);
    for length in (0..70).chain(near).chain([65_536, 1 << 32, 1 << 63]) {
        let wanted = length.saturating_add(LIVE_HEAD);
        same("live size", call::live_size(length), wanted)?;
    }
    Ok(())
}
