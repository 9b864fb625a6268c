//! Live monitors as bytes (V1 to V3): a monitor's image, the chart's length, the chart.

use crate::reader::read_chart;
use crate::value::*;

/// Bytes of a monitor's image.
pub const MONITOR_IMAGE: usize = 59;
/// Where the image has the reason; the cause's region and term come after it.
const REASON: usize = 56;
/// Bytes of a live monitor before its chart: the image and the chart's length.
pub const LIVE_HEAD: usize = MONITOR_IMAGE + 8;

/// A monitor's image.
#[inline]
pub fn monitor_image(monitor: &MonitorValue) -> [u8; MONITOR_IMAGE] {
    let mut image = [0; MONITOR_IMAGE];
    let mut numbers = vec![monitor.fired];
    numbers.extend(monitor.resets);
    numbers.extend([monitor.now, monitor.records, monitor.kept]);
    numbers.extend([monitor.dropped, monitor.break_record]);
    for (number, part) in numbers.iter().zip(image.chunks_exact_mut(4)) {
        part.copy_from_slice(&number.to_be_bytes());
    }
    let Cause { region, term } = monitor.cause;
    image[REASON..].copy_from_slice(&[monitor.reason, region, term]);
    image
}

/// The monitor of an image; none if the length is another.
#[inline]
pub fn monitor_of(image: &[u8]) -> Option<MonitorValue> {
    if image.len() != MONITOR_IMAGE {
        return None;
    }
    let number = |place: usize| {
        let part = &image[4 * place..4 * place + 4];
        u32::from_be_bytes([part[0], part[1], part[2], part[3]])
    };
    let mut resets = [0; MAX_CLOCKS];
    for (clock, moment) in resets.iter_mut().enumerate() {
        *moment = number(1 + clock);
    }
    Some(MonitorValue {
        fired: number(0),
        resets,
        now: number(9),
        records: number(10),
        kept: number(11),
        dropped: number(12),
        break_record: number(13),
        reason: image[REASON],
        cause: Cause {
            region: image[REASON + 1],
            term: image[REASON + 2],
        },
    })
}

/// The live bytes of a chart and a monitor.
pub fn live_bytes(chart: &[u8], monitor: &MonitorValue) -> Vec<u8> {
    let mut live = monitor_image(monitor).to_vec();
    live.extend((chart.len() as u64).to_be_bytes());
    live.extend(chart);
    live
}

/// The chart, as bytes and as a value, and the monitor that live bytes hold; none for refusal 20
/// (V3). Bytes after the chart are not read.
pub fn held(live: &[u8]) -> Option<(&[u8], ChartValue, MonitorValue)> {
    let monitor = monitor_of(live.get(..MONITOR_IMAGE)?)?;
    let length: [u8; 8] = live.get(MONITOR_IMAGE..LIVE_HEAD)?.try_into().ok()?;
    let length = usize::try_from(u64::from_be_bytes(length)).ok()?;
    let chart = live[LIVE_HEAD..].get(..length)?;
    Some((chart, read_chart(chart).ok()?, monitor))
}
