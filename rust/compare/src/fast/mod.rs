//! The reference's answers at speed: the chart is compiled once to masks, arrays and a key
//! table; a record costs a lookup, a few mask tests and no allocation.

mod feed_log;
mod keys;
mod log;
mod masks;
mod own;
mod plan;
mod preview;
mod stamped;
mod state;
mod steps;
mod term;
mod yes_no;

use lsc_reference::log::Verdict;
use lsc_reference::monitor::not_taken;
use lsc_reference::value::*;
use masks::Masks;
use steps::{take, Raw};

pub use feed_log::{feed_log, feed_log_by, WORTH_A_PLAN};
pub use log::scan;
pub use plan::Plan;
pub use preview::preview;
pub use state::State;

/// Judging a whole log over a chart value, plain or raw.
pub fn judge(chart: &ChartValue, log: &[u8]) -> Result<Verdict, (u8, usize)> {
    Plan::of(chart).ok_or((20, 0))?.judge(log)
}

/// Whether a log breaks a chart value, plain or raw.
pub fn breaks(chart: &ChartValue, log: &[u8]) -> Result<bool, (u8, usize)> {
    Plan::of(chart).ok_or((20, 0))?.breaks(log)
}

/// Feeding one record, every refusal tested.
pub fn feed(
    chart: &ChartValue,
    monitor: MonitorValue,
    record: RecordValue,
) -> (Answer, MonitorValue) {
    let Some(masks) = Masks::of(chart) else {
        return (Answer::Refused(20), monitor);
    };
    if !masks.is_fit(chart, &monitor) {
        return (Answer::Refused(21), monitor);
    }
    if let Some(answer) = not_taken(&monitor, &record) {
        return (answer, monitor);
    }
    let mut state = State::of(&monitor);
    state.count(record.time());
    let carriers = record.message().map(|message| carriers(chart, message));
    let answer = match carriers.unwrap_or(0) {
        0 => Answer::Quiet,
        carriers => take(&Raw::of(chart, &masks), &masks, &mut state, carriers),
    };
    (answer, state.to_value())
}

/// The regions that have the message.
fn carriers(chart: &ChartValue, message: Message) -> u32 {
    let event = EventValue::Message(message);
    let mut carriers = 0;
    for (place, region) in chart.regions[..usize::from(chart.count)].iter().enumerate() {
        carriers |= u32::from(region.event == event) << place;
    }
    carriers
}

/// Refusal 20's test, field by field.
pub fn is_given(chart: &ChartValue) -> bool {
    Masks::of(chart).is_some()
}
