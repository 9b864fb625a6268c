//! What each region's message would be answered, over live bytes of any kind: `lsc_preview` and
//! the safe `preview` against the reference's, and against feeding copies of the bytes.

use super::bytes::some_live;
use super::live::feed_live;
use super::{filled, BEYOND};
use crate::charts;
use crate::difference::{same, Both, Hex};
use crate::image::live_bytes;
use crate::previewed::{self, Previewed};
use crate::random::{self, Rng};
use crate::seen::Seen;
use lsc::{call, Foreseen, LiveMonitor};
use lsc_reference::live::held;
use lsc_reference::monitor::feed;
use lsc_reference::preview::preview;
use lsc_reference::value::*;
use std::hint::black_box;

/// The kind's name.
pub const NAME: &str = "preview";

/// The chart and the monitor of live bytes.
type Held = (ChartValue, MonitorValue);

pub fn make(rng: &mut Rng) -> (Vec<u8>, Vec<u8>) {
    let (live, monitor) = if rng.chance(25) {
        let (live, _, monitor) = some_live(rng);
        (live, monitor)
    } else {
        sound_live(rng)
    };
    let time = random::moment(rng, &monitor);
    (live, time.to_be_bytes().to_vec())
}

/// The live bytes of a chart and a monitor, mostly a fit one, and the monitor.
fn sound_live(rng: &mut Rng) -> (Vec<u8>, MonitorValue) {
    let (bytes, chart) = if rng.chance(40) {
        charts::some_small(rng)
    } else {
        let size = random::some_size(rng);
        random::chart(rng, size)
    };
    let monitor = if rng.chance(60) {
        random::reached_monitor(rng, &chart)
    } else {
        random::monitor_value(rng, &chart)
    };
    (live_bytes(&bytes, &monitor), monitor)
}

/// The moment of some bytes, 0 if they are not four.
fn moment(bytes: &[u8]) -> u32 {
    u32::from_be_bytes(bytes.try_into().unwrap_or([0; 4]))
}

pub fn compare(before: &[u8], time: &[u8], seen: &mut Seen) -> Result<(), Both> {
    let time = moment(time);
    let held: Option<Held> = held(before).map(|(_, chart, monitor)| (chart, monitor));
    let count = held.map_or(0, |(chart, _)| chart.count.into());
    let live = before.to_vec();
    let shown = check_room(&live, &held, time, count)?;
    let wanted = shown.as_deref().map_err(|number| *number);
    let more = check_room(&live, &held, time, count + BEYOND)?;
    same("a longer buffer", more.err(), wanted.err())?;
    for room in 0..count {
        let short = check_room(&live, &held, time, room)?;
        count_short(&held, room, &short, wanted, seen);
    }
    same("bytes after previews", Hex(black_box(&live)), Hex(before))?;
    let told = LiveMonitor::from_bytes(live).and_then(|monitor| monitor.preview(time));
    let told = told.map(|entries| entries.into_iter().map(byte).collect::<Vec<u8>>());
    let told = told.map_err(|refusal| refusal.number());
    same("the safe preview", told.as_deref(), shown.as_deref())?;
    match &held {
        Some(held) => check_fed(before, held, time, wanted, seen),
        None => {
            seen.coverage.refusal(20);
            seen.coverage.previewed(NAME, Previewed::Refused(20));
            Ok(())
        }
    }
}

/// The byte of what the safe wrapper shows for a region.
fn byte(entry: Option<Foreseen>) -> u8 {
    entry.map_or(0, Foreseen::number)
}

/// Compares a preview in a buffer of so many bytes: number, count of regions and each byte. Gives
/// the bytes, or the refusal.
fn check_room(
    live: &[u8],
    held: &Option<Held>,
    time: u32,
    room: usize,
) -> Result<Result<Vec<u8>, u8>, Both> {
    let mut wanted = filled(room);
    let answer = match held {
        None => Err(20),
        Some((chart, monitor)) => preview(chart, monitor, time, &mut wanted),
    };
    let number = answer.err().unwrap_or(0);
    let regions = match (held, number) {
        (Some((chart, _)), 0 | 12) => chart.count.into(),
        _ => 0,
    };
    let (mut out, mut told) = (filled(room), 77);
    let said = call::preview(black_box(live), time, &mut out, &mut told);
    let wanted = (number, regions, Hex(&wanted));
    same("preview", (said, told, Hex(&out)), wanted)?;
    Ok(answer.map(|()| out))
}

/// Counts what a buffer of so few bytes came to, where one that is long enough gives `longer`.
fn count_short(
    held: &Option<Held>,
    room: usize,
    short: &Result<Vec<u8>, u8>,
    longer: Result<&[u8], u8>,
    seen: &mut Seen,
) {
    if let (Some((chart, monitor)), Err(12)) = (held, short) {
        seen.coverage.refusal(12);
        for name in previewed::short_names(chart, monitor, room, longer) {
            seen.coverage.previewed(NAME, name);
        }
    }
}

/// Each message fed to a copy of the live bytes: the byte that is shown, or the same refusal.
fn check_fed(
    before: &[u8],
    (chart, monitor): &Held,
    time: u32,
    shown: Result<&[u8], u8>,
    seen: &mut Seen,
) -> Result<(), Both> {
    for (place, region) in chart.regions[..chart.count.into()].iter().enumerate() {
        let Some(message) = region.message() else {
            continue;
        };
        let record = message.at(time);
        let (answer, after) = feed(chart, *monitor, record);
        let byte = shown.map_or_else(|number| number, |bytes| bytes[place]);
        let fed = feed_live(&mut before.to_vec(), &record);
        let wanted = (answer.number(), answer.number());
        same("a region's byte and feeding", (byte, fed), wanted)?;
        seen.coverage.fed(NAME, chart, monitor, &answer, &after);
    }
    for name in previewed::names(chart, monitor, time, shown) {
        seen.coverage.previewed(NAME, name);
    }
    Ok(())
}
