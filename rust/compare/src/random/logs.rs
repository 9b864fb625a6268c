//! Records over a chart, mostly such as its regions await.

use super::Rng;
use crate::fast::{Plan, State};
use lsc_reference::monitor::in_prechart;
use lsc_reference::value::*;

/// A gap between two records; a wild one may be of any length.
pub(super) fn gap(rng: &mut Rng, wild: bool) -> u32 {
    match rng.below(if wild { 105 } else { 99 }) {
        0..=34 => 0,
        35..=69 => rng.range(1, 3) as u32,
        70..=89 => rng.range(4, 15) as u32,
        90..=98 => rng.range(16, 60) as u32,
        _ => rng.pick(&[1_000, 1 << 20, 1 << 31, 0x7FFF_FFFF]),
    }
}

/// A region's message at a time; none for a plain region.
pub(super) fn message_of(region: &RegionValue, time: u32) -> Option<RecordValue> {
    region.message().map(|message| message.at(time))
}

/// A message near one of the chart's, or any message at all.
pub(super) fn stray_message(rng: &mut Rng, chart: &ChartValue, time: u32) -> RecordValue {
    let count = usize::from(chart.count).clamp(1, MAX_REGIONS);
    let place = rng.below(count);
    let mut message = chart.regions[place].message().unwrap_or_else(|| Message {
        source: rng.byte() % 16,
        destination: rng.byte() % 16,
        label: rng.byte().into(),
    });
    match rng.below(6) {
        0 => std::mem::swap(&mut message.source, &mut message.destination),
        1 => message.label ^= 1 << rng.below(16),
        2 => message.source ^= 1 << rng.below(8),
        3 => message.destination ^= 1 << rng.below(8),
        4 => message = any_message(rng),
        _ => message.destination = message.source,
    }
    message.at(time)
}

/// Any message at all.
fn any_message(rng: &mut Rng) -> Message {
    Message {
        source: rng.byte(),
        destination: rng.byte(),
        label: rng.draw() as u16,
    }
}

/// A message of some region of the chart.
pub(super) fn chart_message(rng: &mut Rng, chart: &ChartValue, time: u32) -> RecordValue {
    let count = usize::from(chart.count).min(MAX_REGIONS);
    let messages: Vec<RecordValue> = chart.regions[..count]
        .iter()
        .filter_map(|region| message_of(region, time))
        .collect();
    if messages.is_empty() {
        stray_message(rng, chart, time)
    } else {
        rng.pick(&messages)
    }
}

/// The places of a set of regions.
fn places(set: u32) -> Vec<usize> {
    (0..MAX_REGIONS)
        .filter(|place| (set >> place) & 1 == 1)
        .collect()
}

/// A message that a ready region awaits, at a time that mostly suits its condition.
fn awaited_message(
    rng: &mut Rng,
    chart: &ChartValue,
    plan: &Plan,
    state: &State,
    wild: bool,
) -> Option<RecordValue> {
    let ready = places(plan.ready_messages(state));
    if ready.is_empty() {
        return None;
    }
    let mut record = None;
    for _ in 0..8 {
        let place = rng.pick(&ready);
        let time = state.now().saturating_add(gap(rng, wild));
        record = message_of(&chart.regions[place], time);
        let mut tried = *state;
        let answer = plan.take_record(&mut tried, record.as_ref()?);
        if !matches!(answer, Answer::Dropped(_) | Answer::Broken(_)) || rng.chance(5) {
            break;
        }
    }
    record
}

/// A message that a region fired with at the opening of an unfinished prechart, sent again:
/// mostly no ready region has it.
pub(super) fn opening_message(
    rng: &mut Rng,
    chart: &ChartValue,
    plan: &Plan,
    fired: u32,
    time: u32,
) -> Option<RecordValue> {
    if !in_prechart(chart, fired) {
        return None;
    }
    let fired = places(plan.ready_messages(&State::FRESH) & fired);
    if fired.is_empty() {
        return None;
    }
    message_of(&chart.regions[rng.pick(&fired)], time)
}

/// The time about which a log starts.
fn start(rng: &mut Rng) -> u32 {
    match rng.below(20) {
        0 => u32::MAX - rng.below(60) as u32,
        1 => rng.draw() as u32,
        2..=9 => 0,
        _ => rng.below(200) as u32,
    }
}

/// How the records of a log are chosen.
struct Habits {
    /// So many of a hundred are awaited, and so many start a prechart again.
    care: usize,
    again: usize,
    /// Gaps may be of any length.
    wild: bool,
}

/// A record for a monitor in this state, not before `now`.
fn next_record(
    rng: &mut Rng,
    chart: &ChartValue,
    plan: Option<&Plan>,
    state: &State,
    now: u32,
    habits: &Habits,
) -> RecordValue {
    let time = now.saturating_add(gap(rng, habits.wild));
    let mut record = None;
    if let Some(plan) = plan {
        if rng.chance(habits.again) {
            record = opening_message(rng, chart, plan, state.fired, time);
        }
        if record.is_none() && rng.chance(habits.care) {
            let mut later = *state;
            if now > state.now() {
                // Time passes up to the log's own start before the first record.
                plan.take_record(&mut later, &RecordValue::Time(now));
            }
            record = awaited_message(rng, chart, plan, &later, habits.wild);
        }
    }
    record.unwrap_or_else(|| match rng.below(10) {
        0..=3 => RecordValue::Time(time),
        4..=6 => chart_message(rng, chart, time),
        _ => stray_message(rng, chart, time),
    })
}

/// Random records over a chart, their times never falling.
pub fn records(rng: &mut Rng, chart: &ChartValue, count: usize) -> Vec<RecordValue> {
    let start = start(rng);
    records_from(rng, chart, count, start)
}

/// The same, from a time on.
pub(super) fn records_from(
    rng: &mut Rng,
    chart: &ChartValue,
    count: usize,
    start: u32,
) -> Vec<RecordValue> {
    records_after(rng, chart, &State::FRESH, count, start)
}

/// The same, for a monitor in a state, from its now on or later.
pub(super) fn records_after(
    rng: &mut Rng,
    chart: &ChartValue,
    state: &State,
    count: usize,
    start: u32,
) -> Vec<RecordValue> {
    let plan = Plan::of(chart);
    let mut state = *state;
    let mut records = Vec::new();
    let habits = Habits {
        care: rng.pick(&[100, 98, 90, 70, 30]),
        again: rng.pick(&[0, 0, 5, 20, 50]),
        wild: rng.chance(10),
    };
    let mut now = start;
    for _ in 0..count {
        let record = next_record(rng, chart, plan.as_ref(), &state, now, &habits);
        now = record.time();
        if let Some(plan) = &plan {
            if state.broken.is_none() {
                plan.take_record(&mut state, &record);
            }
        }
        records.push(record);
    }
    records
}

/// A message of the chart that breaks it in this state, now or later, if there is one.
fn breaking_message(
    rng: &mut Rng,
    chart: &ChartValue,
    plan: &Plan,
    state: &State,
) -> Option<RecordValue> {
    let time = state.now().saturating_add(rng.pick(&[0, 0, 1, 61]));
    let messages = chart.regions[..usize::from(chart.count)]
        .iter()
        .filter_map(|region| message_of(region, time));
    let breaks = |record: &RecordValue| {
        let answer = plan.take_record(&mut state.clone(), record);
        matches!(answer, Answer::Broken(_))
    };
    let breaking: Vec<RecordValue> = messages.filter(breaks).collect();
    (!breaking.is_empty()).then(|| rng.pick(&breaking))
}

/// Puts a message that breaks the chart, for a monitor in a state, among the records, at the first
/// place that allows it from some place on, mostly an early one. No time falls.
pub(super) fn break_after(
    rng: &mut Rng,
    chart: &ChartValue,
    state: &State,
    records: &mut Vec<RecordValue>,
) {
    let Some(plan) = Plan::of(chart) else {
        return;
    };
    let most = rng.below(records.len() + 1);
    let from = rng.below(most + 1);
    let mut state = *state;
    for place in 0..=records.len() {
        if place >= from {
            if let Some(breaking) = breaking_message(rng, chart, &plan, &state) {
                for later in &mut records[place..] {
                    *later = later.with_time(later.time().max(breaking.time()));
                }
                return records.insert(place, breaking);
            }
        }
        match records.get(place) {
            Some(record) if state.broken.is_none() => {
                plan.take_record(&mut state, record);
            }
            _ => return,
        }
    }
}

/// Random records with, now and then, one whose time falls: a list of feeds, some refused.
pub fn feeds(rng: &mut Rng, chart: &ChartValue, count: usize) -> Vec<RecordValue> {
    let mut list = records(rng, chart, count);
    for record in &mut list {
        if rng.chance(4) {
            *record = record.with_time(rng.number());
        } else if rng.chance(4) {
            *record = record.with_time(record.time().saturating_sub(1));
        }
    }
    list
}
