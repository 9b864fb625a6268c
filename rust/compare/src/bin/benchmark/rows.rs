//! The table's rows.

use crate::subject::{check, proved, proved_breaks, reference, reference_breaks, scan};
use crate::subject::{Subject, BATCHES, FED, LONG, PREVIEWS, ROUNDS};
use lsc::call::{self, KIND_SIZE, LOG_PLACES, PREVIEW_ROOM};
use lsc_compare::fast;
use lsc_compare::image::{Image, LIVE_HEAD, MONITOR_IMAGE};
use lsc_compare::kinds::{feed_images, feed_live};
use lsc_compare::measure::{interleaved, median, ratios};
use lsc_reference::reader::read_chart;
use lsc_reference::value::*;
use std::hint::black_box;

/// The heading of a table with times in this unit.
pub fn heading(unit: &str) {
    println!("| what | proved, {unit} | beside it, {unit} | ratio | from, to |");
    println!("|---|---:|---:|---:|---:|");
}

/// The median of the rounds' ratios, the lowest and the highest.
fn spread(times: &[Vec<f64>]) -> [f64; 3] {
    let mut ratios = ratios(&times[0], &times[1]);
    ratios.sort_by(f64::total_cmp);
    [median(&ratios), ratios[0], ratios[ratios.len() - 1]]
}

/// What was done, nanoseconds for each record on both sides, and the ratio.
fn row(what: &str, subject: &Subject, records: usize, times: &[Vec<f64>]) {
    let each = |place: usize| median(&times[place]) * 1e9 / records as f64;
    let (proved, beside) = (each(0), each(1));
    let (name, [ratio, low, high]) = (subject.name, spread(times));
    println!("| {what}: {name} | {proved:.1} | {beside:.1} | {ratio:.2} | {low:.2}, {high:.2} |");
}

/// What was done, microseconds for each call on both sides, and the ratio.
fn row_of_calls(what: &str, subject: &Subject, calls: usize, times: &[Vec<f64>]) {
    let each = |place: usize| digits(median(&times[place]) * 1e6 / calls as f64);
    let (proved, beside) = (each(0), each(1));
    let (name, [ratio, low, high]) = (subject.name, spread(times).map(digits));
    println!("| {what}: {name} | {proved} | {beside} | {ratio} | {low}, {high} |");
}

/// A positive number with three digits that count.
fn digits(number: f64) -> String {
    let places = (2.0 - number.log10().floor()).clamp(0.0, 9.0);
    format!("{number:.*}", places as usize)
}

/// Whole logs of bytes.
pub fn judging(subject: &Subject) {
    let chart = &subject.chart;
    for (what, log) in [
        ("judging", &subject.log),
        ("judging, raw stamps", &subject.raw),
        ("judging, broken early", &subject.broken),
    ] {
        let times = interleaved(
            ROUNDS,
            &mut [&mut || proved(chart, log), &mut || reference(chart, log)],
        );
        row(what, subject, LONG, &times);
    }
    let log = &subject.log;
    let times = interleaved(ROUNDS, &mut [&mut || proved(chart, log), &mut || scan(log)]);
    row("judging, beside the scan", subject, LONG, &times);
}

/// The log checked, and no record taken.
pub fn checking(subject: &Subject) {
    let log = &subject.log;
    let times = interleaved(ROUNDS, &mut [&mut || check(log), &mut || scan(log)]);
    row("checking, beside the scan", subject, LONG, &times);
}

/// Only yes or no, beside judging the same log and beside the fast yes or no.
pub fn yes_or_no(subject: &Subject) {
    let chart = &subject.chart;
    for (what, log) in [
        ("breaks first", &subject.broken),
        ("breaks midway", &subject.midway),
        ("breaks nowhere", &subject.log),
    ] {
        let times = interleaved(
            ROUNDS,
            &mut [&mut || proved_breaks(chart, log), &mut || {
                proved(chart, log)
            }],
        );
        let beside_judging = format!("yes or no, {what}, beside judging");
        row_of_calls(&beside_judging, subject, 1, &times);
        let times = interleaved(
            ROUNDS,
            &mut [&mut || proved_breaks(chart, log), &mut || {
                reference_breaks(chart, log)
            }],
        );
        row_of_calls(&format!("yes or no, {what}"), subject, 1, &times);
    }
}

/// One record at a time over images, from a fresh monitor.
pub fn feeding_values(subject: &Subject) {
    let records = &subject.records[..FED];
    let image = subject.value.to_image();
    let times = interleaved(
        ROUNDS,
        &mut [
            &mut || {
                let mut monitor = [0; MONITOR_IMAGE];
                for record in records {
                    black_box(feed_images(black_box(&image), &mut monitor, record));
                }
                black_box(monitor);
            },
            &mut || {
                let mut monitor = MonitorValue::ZERO.to_image();
                for record in records {
                    black_box(feed_values(black_box(&image), &mut monitor, record));
                }
                black_box(monitor);
            },
        ],
    );
    row("feeding values", subject, FED, &times);
}

/// The fast judge doing what the functions over images do: read both, feed, write the monitor's.
fn feed_values(image: &[u8], monitor: &mut [u8], record: &RecordValue) -> Option<Answer> {
    let chart = ChartValue::from_image(image)?;
    let (answer, after) = fast::feed(&chart, MonitorValue::from_image(monitor)?, *record);
    monitor.copy_from_slice(&after.to_image());
    Some(answer)
}

/// One record at a time over live bytes, from a fresh monitor.
pub fn feeding_live(subject: &Subject) {
    let records = &subject.records[..FED];
    let mut fresh = vec![0; call::live_size(subject.chart.len())];
    call::open(&subject.chart, &mut fresh, &mut 0);
    let times = interleaved(
        ROUNDS,
        &mut [
            &mut || {
                let mut live = fresh.clone();
                for record in records {
                    black_box(feed_live(black_box(&mut live), record));
                }
            },
            &mut || {
                let mut live = fresh.clone();
                for record in records {
                    black_box(feed_reference(black_box(&mut live), record));
                }
            },
        ],
    );
    row("feeding live", subject, FED, &times);
}

/// The fast judge doing what the live functions do: read the chart, feed, write the image.
fn feed_reference(live: &mut [u8], record: &RecordValue) -> Option<Answer> {
    let chart = read_chart(&live[LIVE_HEAD..]).ok()?;
    let monitor = MonitorValue::from_image(&live[..MONITOR_IMAGE])?;
    let (answer, after) = fast::feed(&chart, monitor, *record);
    live[..MONITOR_IMAGE].copy_from_slice(&after.to_image());
    Some(answer)
}

/// A log's bytes fed to a live monitor by so many records a call, from a fresh one: beside judging
/// them in one call and beside the fast feed.
pub fn feeding_logs(subject: &Subject) {
    let mut fresh = vec![0; call::live_size(subject.chart.len())];
    call::open(&subject.chart, &mut fresh, &mut 0);
    let (plain, raw) = (subject.first_records(FED), subject.first_raw_records(FED));
    let mut logs: Vec<(String, &[u8], usize)> = Vec::new();
    for batch in BATCHES {
        logs.push((format!("feeding a log by {batch}"), plain, batch));
    }
    let most = BATCHES[BATCHES.len() - 1];
    logs.push((format!("feeding a log by {most}, raw stamps"), raw, most));
    for (what, log, batch) in logs {
        let batches = subject.batches(log, batch);
        let mut proved_feed = || feed_batches(&fresh, &batches, call::feed_log);
        let times = interleaved(
            ROUNDS,
            &mut [&mut proved_feed, &mut || proved(&subject.chart, log)],
        );
        row(&format!("{what}, beside judging"), subject, FED, &times);
        let times = interleaved(
            ROUNDS,
            &mut [&mut proved_feed, &mut || {
                feed_batches(&fresh, &batches, fast::feed_log)
            }],
        );
        row(&what, subject, FED, &times);
    }
}

/// Feeding from a log's bytes: live bytes, the kind, the log, the places.
type FeedLog = fn(&mut [u8], &mut [u8], &[u8], &mut [u64]) -> u8;

/// Feeds batch after batch to a copy of live bytes.
fn feed_batches(fresh: &[u8], batches: &[&[u8]], feed_log: FeedLog) {
    let (mut live, mut kind) = (fresh.to_vec(), [0; KIND_SIZE]);
    for batch in batches {
        let mut out = [0; LOG_PLACES];
        let log = black_box(*batch);
        black_box(feed_log(black_box(&mut live), &mut kind, log, &mut out));
        black_box(out);
    }
    black_box(live);
}

/// Previews of live monitors, beside one feed of each and beside the fast preview.
pub fn previews(subject: &Subject) {
    let monitors = live_monitors(subject);
    let mut scratch = monitors[0].0.clone();
    let mut proved = || {
        for (live, record) in &monitors {
            let mut out = [0; PREVIEW_ROOM];
            let time = record.time();
            black_box(call::preview(black_box(live), time, &mut out, &mut 0));
            black_box(out);
        }
    };
    let times = interleaved(
        ROUNDS,
        &mut [&mut proved, &mut || {
            for (live, record) in &monitors {
                scratch.copy_from_slice(live);
                black_box(feed_live(black_box(&mut scratch), record));
            }
        }],
    );
    row_of_calls("preview, beside one feed", subject, PREVIEWS, &times);
    let times = interleaved(
        ROUNDS,
        &mut [&mut proved, &mut || {
            for (live, record) in &monitors {
                let mut out = [0; PREVIEW_ROOM];
                black_box(preview_reference(black_box(live), record.time(), &mut out));
                black_box(out);
            }
        }],
    );
    row_of_calls("preview", subject, PREVIEWS, &times);
}

/// Live monitors, each one record further than the one before, with the record that comes next.
fn live_monitors(subject: &Subject) -> Vec<(Vec<u8>, RecordValue)> {
    let mut live = vec![0; call::live_size(subject.chart.len())];
    call::open(&subject.chart, &mut live, &mut 0);
    let mut monitors = Vec::new();
    for record in &subject.records[..PREVIEWS] {
        monitors.push((live.clone(), *record));
        feed_live(&mut live, record);
    }
    monitors
}

/// The fast preview doing what the live function does: read the chart and the image.
fn preview_reference(live: &[u8], time: u32, out: &mut [u8]) -> Option<Result<(), u8>> {
    let chart = read_chart(&live[LIVE_HEAD..]).ok()?;
    let monitor = MonitorValue::from_image(&live[..MONITOR_IMAGE])?;
    Some(fast::preview(&chart, &monitor, time, out))
}
