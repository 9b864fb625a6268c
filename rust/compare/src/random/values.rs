//! Values of charts, monitors and records, fit and unfit.

use super::charts::{chart, some_size};
use super::logs::{chart_message, gap, message_of, opening_message, records, stray_message};
use super::Rng;
use crate::fast::{Plan, State};
use lsc_reference::value::*;

/// A wild term.
fn wild_term(rng: &mut Rng) -> TermValue {
    let small = |rng: &mut Rng| rng.pick(&[0, 0, 1, 2, 7, 8, 9, 255]);
    TermValue {
        left: if rng.chance(50) {
            LeftValue::Clock(small(rng))
        } else {
            LeftValue::Difference(small(rng), small(rng))
        },
        relation: rng.pick(&[0, 1, 2, 3, 4, 5, 255]),
        n: rng.number() as i32,
    }
}

/// A wild event.
fn wild_event(rng: &mut Rng) -> EventValue {
    let line = |rng: &mut Rng| rng.pick(&[0, 1, 2, 3, 15, 16, 17, 255]);
    if rng.chance(50) {
        EventValue::Message(Message {
            source: line(rng),
            destination: line(rng),
            label: rng.draw() as u16,
        })
    } else {
        EventValue::Plain(rng.pick(&[0, 1, 2, 3, 7, 0x10, 0x8000, 0xFFFF]))
    }
}

/// A wild region.
fn wild_region(rng: &mut Rng) -> RegionValue {
    let mut region = RegionValue {
        event: wild_event(rng),
        ..RegionValue::ZERO
    };
    for _ in 0..rng.below(3) {
        change_region(rng, &mut region);
    }
    region
}

/// Changes one field of a region.
fn change_region(rng: &mut Rng, region: &mut RegionValue) {
    let used = usize::from(region.term_count).clamp(1, MAX_TERMS);
    match rng.below(11) {
        0 | 1 => region.event = wild_event(rng),
        2 => region.hot = !region.hot,
        3 => region.resets = rng.pick(&[0, 1, 2, 3, 0x40, 0x80, 0xFF]),
        4 => region.resets ^= 1 << rng.below(8),
        5 => region.term_count = rng.pick(&[0, 1, 2, 3, 4, 5, 255]),
        6 => region.terms[rng.below(MAX_TERMS)] = wild_term(rng),
        7 => region.terms[rng.below(used)] = wild_term(rng),
        8 => region.terms[rng.below(MAX_TERMS)].n ^= 1 << rng.below(32),
        9 => region.rest = !region.rest,
        _ => {
            let term = &mut region.terms[rng.below(used)];
            match rng.below(3) {
                0 => term.relation = rng.pick(&[0, 4, 5, 6]),
                1 => term.left = wild_term(rng).left,
                _ => {
                    term.left = match term.left {
                        LeftValue::Clock(clock) => LeftValue::Difference(clock, 0),
                        LeftValue::Difference(first, _) => LeftValue::Difference(first, first),
                    }
                }
            }
        }
    }
}

/// Changes one field of a chart value.
fn change_chart(rng: &mut Rng, chart: &mut ChartValue) {
    let used = usize::from(chart.count).clamp(1, MAX_REGIONS);
    let near = rng.pick(&[0, 1, 2, 8, 9, 15, 16, 17, 31, 32, 33, 255]);
    match rng.below(13) {
        0 => chart.lines = near,
        1 => chart.clocks = near,
        2 => chart.prechart = near,
        3 => chart.count = near,
        4 => chart.count = chart.count.wrapping_add(1),
        5 => chart.prechart = chart.prechart.wrapping_add(1),
        6 => {
            let place = rng.below(MAX_REGIONS);
            change_region(rng, &mut chart.regions[place]);
        }
        7 => {
            let (a, b) = (rng.below(used), rng.below(used));
            chart.regions.swap(a, b);
        }
        8 => {
            let region = &mut chart.regions[rng.below(MAX_REGIONS)];
            region.rest = !region.rest;
        }
        _ => {
            let place = rng.below(used);
            change_region(rng, &mut chart.regions[place]);
        }
    }
}

/// A chart value: well-formed, with one or two fields changed, or wild.
pub fn chart_value(rng: &mut Rng) -> ChartValue {
    let size = some_size(rng);
    let mut value = chart(rng, size).1;
    match rng.below(10) {
        0..=2 => {}
        3..=6 => change_chart(rng, &mut value),
        7 | 8 => {
            change_chart(rng, &mut value);
            change_chart(rng, &mut value);
        }
        _ => {
            value = ChartValue {
                lines: rng.pick(&[0, 2, 4, 16, 17, 255]),
                clocks: rng.pick(&[0, 1, 8, 9, 255]),
                prechart: rng.pick(&[0, 1, 2, 32, 33, 255]),
                count: rng.pick(&[0, 1, 2, 3, 32, 33, 255]),
                ..ChartValue::ZERO
            };
            for _ in 0..rng.below(40) {
                value.regions[rng.below(MAX_REGIONS)] = wild_region(rng);
            }
        }
    }
    value
}

/// A monitor reached by feeding a random log.
pub fn reached_monitor(rng: &mut Rng, chart: &ChartValue) -> MonitorValue {
    let Some(plan) = Plan::of(chart) else {
        return MonitorValue::ZERO;
    };
    let count = rng.below(16);
    let mut state = State::FRESH;
    for record in records(rng, chart, count) {
        if state.broken.is_none() {
            plan.take_record(&mut state, &record);
        }
    }
    state.to_value()
}

/// A region and a term, mostly near the chart's.
fn some_cause(rng: &mut Rng, chart: &ChartValue) -> Cause {
    let count = chart.count;
    let near = rng.range(0, i64::from(count) + 1) as u8;
    let region = rng.pick(&[near, near, near, 0, 1, count, 32, 33, 255]);
    let place = usize::from(region).saturating_sub(1);
    let terms = chart.regions.get(place).map_or(0, |of| of.term_count);
    let term = rng.pick(&[0, 1, 1, 2, terms, terms, terms.wrapping_add(1), 4, 5, 255]);
    Cause { region, term }
}

/// Changes the reason, and mostly region and term to go with it.
fn change_reason(rng: &mut Rng, chart: &ChartValue, monitor: &mut MonitorValue) {
    monitor.reason = rng.pick(&[0, 1, 2, 2, 3, 255]);
    if rng.chance(50) {
        monitor.break_record = rng.pick(&[0, 1, monitor.records]);
    }
    monitor.cause = match monitor.reason {
        2 => some_cause(rng, chart),
        _ if rng.chance(70) => Cause::NONE,
        _ => monitor.cause,
    };
}

/// Changes kept and dropped so that together they are about the records or twice as many, or so
/// that their sum in 32 bits is.
fn change_counts(rng: &mut Rng, monitor: &mut MonitorValue) {
    let largest = u64::from(u32::MAX);
    let about = u64::from(monitor.records) * rng.pick(&[1, 2, 2, 2]) + rng.pick(&[0, 0, 1 << 32]);
    let sum = (about + rng.pick(&[0, 1, 1, 2])).saturating_sub(1);
    let sum = sum.min(2 * largest);
    let (least, most) = (sum.saturating_sub(largest), sum.min(largest));
    let kept = match rng.below(3) {
        0 => least,
        1 => most,
        _ => least + rng.draw() % (most - least + 1),
    };
    monitor.kept = kept as u32;
    monitor.dropped = (sum - kept) as u32;
}

/// Changes one field of a monitor, or what goes together.
fn change_monitor(rng: &mut Rng, chart: &ChartValue, monitor: &mut MonitorValue) {
    match rng.below(21) {
        0 => monitor.fired ^= 1 << rng.below(32),
        1 => monitor.fired ^= 1 << rng.below(6),
        2 => monitor.fired = rng.draw() as u32 & rng.draw() as u32,
        3 => monitor.fired = u32::MAX.checked_shr(rng.below(33) as u32).unwrap_or(0),
        4 => monitor.resets[rng.below(MAX_CLOCKS)] = rng.number(),
        5 => monitor.resets[rng.below(MAX_CLOCKS)] = monitor.now,
        6 => monitor.resets[rng.below(MAX_CLOCKS)] = monitor.now.wrapping_add(1),
        7 => monitor.now = rng.number(),
        8 => monitor.records = rng.number(),
        9 => monitor.records = rng.pick(&[0, 999_999, 1_000_000, 1_000_001]),
        10 => monitor.kept = rng.number(),
        11 => monitor.dropped = rng.number(),
        12 => {
            monitor.break_record = rng.pick(&[0, 1, 2, monitor.records, u32::MAX]);
        }
        13 => monitor.reason = rng.pick(&[0, 1, 2, 3, 255]),
        14 | 15 => change_reason(rng, chart, monitor),
        16 => monitor.cause = some_cause(rng, chart),
        17 => monitor.cause.region = some_cause(rng, chart).region,
        18 => monitor.cause.term = some_cause(rng, chart).term,
        _ => change_counts(rng, monitor),
    }
}

/// A monitor for a chart: reached by feeding, or that with some fields changed.
pub fn monitor_value(rng: &mut Rng, chart: &ChartValue) -> MonitorValue {
    let mut monitor = reached_monitor(rng, chart);
    let changes = rng.pick(&[0, 0, 0, 1, 1, 1, 2, 3]);
    for _ in 0..changes {
        change_monitor(rng, chart, &mut monitor);
    }
    monitor
}

/// The message of the first region that is not fired.
fn unfired_message(chart: &ChartValue, fired: u32, time: u32) -> Option<RecordValue> {
    let count = usize::from(chart.count).min(MAX_REGIONS);
    (0..count)
        .filter(|place| (fired >> place) & 1 == 0)
        .find_map(|place| message_of(&chart.regions[place], time))
}

/// A moment, mostly now or a little later.
pub fn moment(rng: &mut Rng, monitor: &MonitorValue) -> u32 {
    match rng.below(12) {
        0 => rng.number(),
        1 => monitor.now.saturating_sub(1),
        _ => monitor.now.saturating_add(gap(rng, true)),
    }
}

/// A record to feed: awaited, of the chart, of its opening, stray, of time; its time about now.
pub fn record_value(rng: &mut Rng, chart: &ChartValue, monitor: &MonitorValue) -> RecordValue {
    let time = moment(rng, monitor);
    let record = match rng.below(12) {
        0 => None,
        1 => Some(stray_message(rng, chart, time)),
        2..=4 => Some(chart_message(rng, chart, time)),
        5..=7 => Plan::of(chart)
            .and_then(|plan| opening_message(rng, chart, &plan, monitor.fired, time))
            .or_else(|| unfired_message(chart, monitor.fired, time)),
        _ => unfired_message(chart, monitor.fired, time),
    };
    record.unwrap_or(RecordValue::Time(time))
}
