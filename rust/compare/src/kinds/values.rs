//! Chart and monitor values of any kind, through their images: `lsc_test_new` and
//! `lsc_test_feed_*` against the reference's `new` and `feed`.

use super::{filled, BEYOND};
use crate::difference::{same, Both, Hex};
use crate::image::{mark_place, Image, MONITOR_IMAGE};
use crate::random::{self, Rng};
use crate::seen::Seen;
use crate::testing;
use lsc_reference::monitor::{feed, new};
use lsc_reference::value::*;

/// The kind's name.
pub const NAME: &str = "values";

pub fn make(rng: &mut Rng) -> (Vec<u8>, Vec<u8>) {
    let (chart, image) = some_image(rng);
    let monitor = random::monitor_value(rng, &chart);
    let record = random::record_value(rng, &chart, &monitor);
    let mut second = monitor.to_image().to_vec();
    second.extend(record.to_bytes());
    (image, second)
}

/// A chart value, mostly a chart, and its image, now and then damaged.
pub fn some_image(rng: &mut Rng) -> (ChartValue, Vec<u8>) {
    let chart = if rng.chance(60) {
        let size = random::some_size(rng);
        random::chart(rng, size).1
    } else {
        random::chart_value(rng)
    };
    let mut image = chart.to_image().to_vec();
    match rng.below(50) {
        0..=2 => {
            let place = rng.below(image.len());
            image[place] = rng.pick(&[1, 2, 3, 5, 255]);
        }
        3 => {
            image.pop();
        }
        4 => image.push(0),
        5 => image.truncate(rng.below(image.len())),
        6 | 7 => damage_mark(rng, &mut image),
        _ => {}
    }
    (chart, image)
}

/// Changes the byte that is a region's mark to rest on, or the one after it.
fn damage_mark(rng: &mut Rng, image: &mut [u8]) {
    let mark = mark_place(rng.below(MAX_REGIONS));
    image[mark + rng.below(2)] = rng.pick(&[1, 1, 2, 3, 255]);
}

/// Feeds a record to the images, whichever of the two it is.
pub fn feed_images(chart: &[u8], monitor: &mut [u8], record: &RecordValue) -> u8 {
    match *record {
        RecordValue::Time(time) => testing::feed_time(chart, monitor, time),
        RecordValue::Message { message: m, time } => {
            testing::feed_message(chart, monitor, m.source, m.destination, m.label, time)
        }
    }
}

pub fn compare(image: &[u8], second: &[u8], seen: &mut Seen) -> Result<(), Both> {
    let (before, record) = second.split_at(second.len().min(MONITOR_IMAGE));
    let record = RecordValue::from_bytes(record).unwrap_or(RecordValue::Time(0));
    check_new(image, seen)?;
    check_feed(image, before, record, seen)?;
    seen.coverage.marked_image(NAME, image);
    for length in [0, MONITOR_IMAGE - 1] {
        let mut short = filled(length);
        let said = testing::new(image, &mut short);
        let fed = feed_images(image, &mut short, &record);
        let wanted = (12, 12, Hex(&filled(length)));
        same("a short monitor", (said, fed, Hex(&short)), wanted)?;
        seen.coverage.refusal(said);
    }
    Ok(())
}

/// A monitor made of a chart's image: zeros, or refused.
fn check_new(image: &[u8], seen: &mut Seen) -> Result<(), Both> {
    let made = match ChartValue::from_image(image).map(|chart| new(&chart)) {
        Some(Ok(_)) => 0,
        _ => 20,
    };
    let mut wanted = filled(MONITOR_IMAGE + BEYOND);
    wanted[..MONITOR_IMAGE].fill(0);
    let mut monitor = filled(MONITOR_IMAGE + BEYOND);
    let answer = testing::new(image, &mut monitor);
    let wanted = (made, Hex(&wanted));
    same("making a monitor", (answer, Hex(&monitor)), wanted)?;
    if made != 0 {
        seen.coverage.refusal(made);
    }
    Ok(())
}

/// A record fed to images, if the monitor's is one.
fn check_feed(
    image: &[u8],
    before: &[u8],
    record: RecordValue,
    seen: &mut Seen,
) -> Result<(), Both> {
    let Some(value) = MonitorValue::from_image(before) else {
        return Ok(());
    };
    let chart = ChartValue::from_image(image);
    let (answer, after) = match &chart {
        None => (Answer::Refused(20), value),
        Some(chart) => feed(chart, value, record),
    };
    let mut wanted = after.to_image().to_vec();
    wanted.extend(filled(BEYOND));
    let mut monitor = before.to_vec();
    monitor.extend(filled(BEYOND));
    let said = feed_images(image, &mut monitor, &record);
    let fields = MonitorValue::from_image(&monitor[..MONITOR_IMAGE]);
    same("feeding", (said, fields), (answer.number(), Some(after)))?;
    same("bytes after feeding", Hex(&monitor), Hex(&wanted))?;
    match &chart {
        None => seen.coverage.told(false, &answer),
        Some(chart) => seen.coverage.fed(NAME, chart, &value, &answer, &after),
    }
    Ok(())
}
