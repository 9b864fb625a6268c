//! A preview (F): what each region's message would be answered at a moment, while none is fed.

use crate::monitor::{feed_fit, is_fit, Order};
use crate::value::*;
use crate::well_formed::is_given;

/// Writes a byte for each region to the start of `out` (F1): 0 for a plain one, else the number of
/// the answer (T27) that feeding its message at this time would give. Later bytes stay (F3).
///
/// Or a refusal, which writes nothing: 20, 21, 12 if `out` has fewer bytes than the chart has
/// regions; then, unless there is a break, 22 and 23 (F2).
pub fn preview(
    chart: &ChartValue,
    monitor: &MonitorValue,
    time: u32,
    out: &mut [u8],
) -> Result<(), u8> {
    if !is_given(chart) {
        return Err(20);
    }
    if !is_fit(chart, monitor) {
        return Err(21);
    }
    let regions = &chart.regions[..usize::from(chart.count)];
    if out.len() < regions.len() {
        return Err(12);
    }
    if monitor.broken().is_none() {
        if time < monitor.now {
            return Err(22);
        }
        if monitor.records == MAX_RECORDS {
            return Err(23);
        }
    }
    let order = Order::of(chart);
    for (place, region) in out.iter_mut().zip(regions) {
        *place = match region.message() {
            None => 0,
            Some(message) => {
                let (answer, _) = feed_fit(chart, &order, *monitor, message.at(time));
                answer.number()
            }
        };
    }
    Ok(())
}
