//! A preview at speed: each message is taken by a copy of the state.

use super::carriers;
use super::masks::Masks;
use super::state::State;
use super::steps::{take, Raw};
use lsc_reference::monitor::not_taken;
use lsc_reference::value::*;

/// A byte for each region at the start of `out`, or the refusal, every one tested.
pub fn preview(
    chart: &ChartValue,
    monitor: &MonitorValue,
    time: u32,
    out: &mut [u8],
) -> Result<(), u8> {
    let masks = Masks::of(chart).ok_or(20)?;
    if !masks.is_fit(chart, monitor) {
        return Err(21);
    }
    let out = out.get_mut(..usize::from(chart.count)).ok_or(12)?;
    // At one moment a message is refused, or met by a break, as time alone is.
    let same = match not_taken(monitor, &RecordValue::Time(time)) {
        Some(Answer::Refused(number)) => return Err(number),
        same => same,
    };
    let regions = Raw::of(chart, &masks);
    let mut counted = State::of(monitor);
    counted.count(time);
    for (place, region) in out.iter_mut().zip(&chart.regions) {
        let Some(message) = region.message() else {
            *place = 0;
            continue;
        };
        let answer = same.unwrap_or_else(|| {
            let carriers = carriers(chart, message);
            let mut copy = counted;
            take(&regions, &masks, &mut copy, carriers)
        });
        *place = answer.number();
    }
    Ok(())
}
