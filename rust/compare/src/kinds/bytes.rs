//! Live bytes of any kind, damaged ones too: 20 and 21, and nothing changed by a refusal.

use super::live::{check_standing, check_why, feed_live, standing_numbers};
use crate::difference::{same, Both, Hex};
use crate::image::{live_bytes, Image, LIVE_HEAD, MONITOR_IMAGE};
use crate::random::{self, Rng};
use crate::seen::Seen;
use lsc::LiveMonitor;
use lsc_reference::live::held;
use lsc_reference::monitor::{feed, is_fit};
use lsc_reference::value::*;

/// The kind's name.
pub const NAME: &str = "live bytes";

pub fn make(rng: &mut Rng) -> (Vec<u8>, Vec<u8>) {
    let (live, chart, monitor) = some_live(rng);
    let record = random::record_value(rng, &chart, &monitor);
    (live, record.to_bytes())
}

/// Live bytes, mostly of the chart and the monitor beside them.
pub fn some_live(rng: &mut Rng) -> (Vec<u8>, ChartValue, MonitorValue) {
    let size = random::some_size(rng);
    let (bytes, chart) = random::chart(rng, size);
    let monitor = random::monitor_value(rng, &chart);
    let mut live = match rng.below(10) {
        0 => live_bytes(&random::hostile_chart_bytes(rng), &monitor),
        _ => live_bytes(&bytes, &monitor),
    };
    match rng.below(12) {
        0 | 1 => random::damage(rng, &mut live),
        2 => {
            // The length's own bytes.
            let place = MONITOR_IMAGE + rng.below(8);
            live[place] = rng.pick(&[0, 1, 2, 64, 128, 255]);
        }
        3 => {
            let shift = rng.pick(&[-2i64, -1, 1, 2]);
            let length = (bytes.len() as u64).wrapping_add_signed(shift);
            live[MONITOR_IMAGE..LIVE_HEAD].copy_from_slice(&length.to_be_bytes());
            live.extend((0..rng.below(3)).map(|_| rng.byte()));
        }
        4 => live.truncate(rng.below(live.len() + 1)),
        5 | 6 => {
            let more = rng.below(20);
            live.extend((0..more).map(|_| rng.byte()));
        }
        7 => live[MONITOR_IMAGE..LIVE_HEAD].fill(255),
        _ => {}
    }
    (live, chart, monitor)
}

pub fn compare(before: &[u8], record: &[u8], seen: &mut Seen) -> Result<(), Both> {
    let record = RecordValue::from_bytes(record).unwrap_or(RecordValue::Time(0));
    let held = held(before);
    let standing = match &held {
        None => Err(20),
        Some((_, chart, monitor)) if is_fit(chart, monitor) => Ok(standing_numbers(chart, monitor)),
        Some(_) => Err(21),
    };
    check_standing(before, standing, seen)?;
    if let (Some((_, chart, monitor)), Ok(_)) = (&held, standing) {
        seen.coverage.stood(NAME, chart, monitor);
    }
    let taken = LiveMonitor::from_bytes(before.to_vec());
    let refused = taken.err().map(|refusal| refusal.number());
    same("taking up bytes", refused, standing.err())?;

    let mut wanted = before.to_vec();
    let (answer, after) = match &held {
        None => (Answer::Refused(20), None),
        Some((_, chart, monitor)) => {
            let (answer, after) = feed(chart, *monitor, record);
            wanted[..MONITOR_IMAGE].copy_from_slice(&after.to_image());
            (answer, Some(after))
        }
    };
    check_why(before, &record, &answer, &wanted)?;
    let mut live = before.to_vec();
    let said = feed_live(&mut live, &record);
    let wanted = (answer.number(), Hex(&wanted));
    same("feeding", (said, Hex(&live)), wanted)?;
    match (&held, &after) {
        (Some((_, chart, monitor)), Some(after)) => {
            seen.coverage.fed(NAME, chart, monitor, &answer, after);
        }
        _ => seen.coverage.told(false, &answer),
    }
    Ok(())
}
