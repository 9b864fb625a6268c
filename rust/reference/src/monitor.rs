//! The monitor: which regions are above (O), what is fit (M10), feeding (M12), steps 1 to 7 of
//! taking a record (T), and its second offer (T33, T34).

use crate::value::*;
use crate::well_formed::is_given;

/// Which of a chart's regions are above which (O3).
pub struct Order {
    /// `above[b][a]`: region a is above region b.
    above: Vec<Vec<bool>>,
}

impl Order {
    /// O1 and its chains within each half, then O2: together they are O3.
    pub fn of(chart: &ChartValue) -> Order {
        let count = usize::from(chart.count);
        let prechart = usize::from(chart.prechart);
        let mut above = vec![vec![false; count]; count];
        for (b, row) in above.iter_mut().enumerate() {
            for (a, flag) in row.iter_mut().enumerate() {
                let same_half = (a < prechart) == (b < prechart);
                let (above, below) = (&chart.regions[a].event, &chart.regions[b].event);
                *flag = a < b && same_half && above.shares_line_with(below);
            }
        }
        for middle in 0..count {
            let over_middle = above[middle].clone();
            for row in above.iter_mut() {
                if row[middle] {
                    for (flag, over) in row.iter_mut().zip(&over_middle) {
                        *flag |= over;
                    }
                }
            }
        }
        for (b, row) in above.iter_mut().enumerate() {
            for (a, flag) in row.iter_mut().enumerate() {
                *flag |= a < prechart && b >= prechart;
            }
        }
        Order { above }
    }

    /// Whether region a (from 0) is above region b (from 0).
    pub fn is_above(&self, a: usize, b: usize) -> bool {
        self.above[b][a]
    }
}

/// Whether region `region` (from 0) is fired.
pub fn has(fired: u32, region: usize) -> bool {
    (fired >> region) & 1 == 1
}

/// Whether the region is ready (O5).
fn is_ready(chart: &ChartValue, order: &Order, fired: u32, region: usize) -> bool {
    let count = usize::from(chart.count);
    !has(fired, region) && (0..count).all(|a| !order.is_above(a, region) || has(fired, a))
}

/// The lowest-numbered ready plain region.
fn ready_plain(chart: &ChartValue, order: &Order, fired: u32) -> Option<usize> {
    (0..usize::from(chart.count))
        .find(|&r| chart.regions[r].message().is_none() && is_ready(chart, order, fired, r))
}

/// Whether the phase is prechart (T6).
pub fn in_prechart(chart: &ChartValue, fired: u32) -> bool {
    (0..usize::from(chart.prechart)).any(|region| !has(fired, region))
}

fn all_fired(chart: &ChartValue, fired: u32) -> bool {
    (0..usize::from(chart.count)).all(|region| has(fired, region))
}

/// The place (from 0) of the first term that fails with the clocks' values (T4); none if the
/// condition holds (C9).
fn failing_term(region: &RegionValue, now: u32, resets: &[u32; MAX_CLOCKS]) -> Option<usize> {
    let value = |clock: u8| i64::from(now) - i64::from(resets[usize::from(clock)]);
    region
        .condition()
        .iter()
        .position(|term| !term.holds(value))
}

/// A fresh monitor for the chart, or refusal 20 (M8).
pub fn new(chart: &ChartValue) -> Result<MonitorValue, u8> {
    if is_given(chart) {
        Ok(MonitorValue::ZERO)
    } else {
        Err(20)
    }
}

/// Whether the monitor is fit (M10); false for a value that is no chart (M4).
pub fn is_fit(chart: &ChartValue, monitor: &MonitorValue) -> bool {
    is_given(chart) && is_fit_under(chart, &Order::of(chart), monitor)
}

/// M10, point by point.
fn is_fit_under(chart: &ChartValue, order: &Order, monitor: &MonitorValue) -> bool {
    let count = usize::from(chart.count);
    let fired = monitor.fired;
    let closed = (0..count)
        .all(|b| !has(fired, b) || (0..count).all(|a| !order.is_above(a, b) || has(fired, a)));
    let within = (count..MAX_REGIONS).all(|region| !has(fired, region));
    let unfinished = !all_fired(chart, fired);
    let broken = monitor.break_record != 0 || monitor.reason != 0;
    let settled = broken || ready_plain(chart, order, fired).is_none();
    let clocks = usize::from(chart.clocks);
    let moments = monitor.resets.iter().enumerate().all(|(clock, &moment)| {
        if clock < clocks {
            moment <= monitor.now
        } else {
            moment == 0
        }
    });
    let ended = u64::from(monitor.kept) + u64::from(monitor.dropped);
    let counts = monitor.records <= MAX_RECORDS && ended <= 2 * u64::from(monitor.records);
    let break_fits = match monitor.broken() {
        Some(known) => (1..=monitor.records).contains(&known.record),
        None => monitor.break_record == 0 && monitor.reason == 0,
    };
    let cause_fits = match Reason::of(monitor.reason) {
        Some(Reason::ConditionFails) => monitor.cause.is_of(chart),
        _ => monitor.cause == Cause::NONE,
    };
    closed && within && unfinished && settled && moments && counts && break_fits && cause_fits
}

/// Feeding: the tests of M12 in their order, then the steps. A record that is not taken leaves
/// the monitor alone (M14).
pub fn feed(
    chart: &ChartValue,
    monitor: MonitorValue,
    record: RecordValue,
) -> (Answer, MonitorValue) {
    if !is_given(chart) {
        return (Answer::Refused(20), monitor);
    }
    let order = Order::of(chart);
    if !is_fit_under(chart, &order, &monitor) {
        return (Answer::Refused(21), monitor);
    }
    feed_fit(chart, &order, monitor, record)
}

/// Feeding after refusals 20 and 21.
pub fn feed_fit(
    chart: &ChartValue,
    order: &Order,
    monitor: MonitorValue,
    record: RecordValue,
) -> (Answer, MonitorValue) {
    match not_taken(&monitor, &record) {
        Some(answer) => (answer, monitor),
        None => take(chart, order, monitor, record),
    }
}

/// What a fit monitor answers without taking the record: its break again, or refusal 22 or 23.
pub fn not_taken(monitor: &MonitorValue, record: &RecordValue) -> Option<Answer> {
    if let Some(known) = monitor.broken() {
        Some(Answer::Broken(known))
    } else if record.time() < monitor.now {
        Some(Answer::Refused(22))
    } else if monitor.records == MAX_RECORDS {
        Some(Answer::Refused(23))
    } else {
        None
    }
}

/// What a record finds among the regions, before any condition is tested. Regions count from 0.
#[derive(Clone, Copy, Debug, PartialEq, Eq)]
pub enum Found {
    /// It is no chart message (T10).
    Nothing,
    /// This ready region has its message (T11).
    Ready(usize),
    /// No ready region has it, in the main chart (T19).
    UnreadyInMain,
    /// No ready region has it, in the prechart with nothing fired (T18).
    UnreadyAtOpening,
    /// No ready region has it, in the prechart with something fired, so it is offered once more
    /// (T33): it fits if a region that is ready at the opening has it, which is then this one.
    Missed(Option<usize>),
}

/// What the record finds with these regions fired.
pub fn find(chart: &ChartValue, order: &Order, fired: u32, record: &RecordValue) -> Found {
    let carried = regions_with(chart, record);
    let ready_with = |fired: u32| {
        let mut regions = carried.iter().copied();
        regions.find(|&region| is_ready(chart, order, fired, region))
    };
    if carried.is_empty() {
        Found::Nothing
    } else if let Some(region) = ready_with(fired) {
        Found::Ready(region)
    } else if !in_prechart(chart, fired) {
        Found::UnreadyInMain
    } else if fired == 0 {
        Found::UnreadyAtOpening
    } else {
        Found::Missed(ready_with(0))
    }
}

/// Steps 1 to 7, T9 to T21, and the second offer.
fn take(
    chart: &ChartValue,
    order: &Order,
    before: MonitorValue,
    record: RecordValue,
) -> (Answer, MonitorValue) {
    // T9. It is not done again for a second offer.
    let counted = MonitorValue {
        records: before.records + 1,
        now: record.time(),
        ..before
    };
    match find(chart, order, before.fired, &record) {
        Found::Nothing => (Answer::Quiet, counted),
        Found::Ready(region) => fire(chart, order, counted, region),
        Found::UnreadyInMain => break_round(counted, Reason::NoReadyRegion, Cause::NONE),
        Found::UnreadyAtOpening | Found::Missed(None) => drop_round(chart, counted, Cause::NONE),
        // T34: the round is dropped, and the steps go on at the opening that this leaves, with
        // every clock reset at the record's time.
        Found::Missed(Some(region)) => {
            let (_, opened) = drop_round(chart, counted, Cause::NONE);
            fire(chart, order, opened, region)
        }
    }
}

/// The regions that have the record's message.
fn regions_with(chart: &ChartValue, record: &RecordValue) -> Vec<usize> {
    let Some(message) = record.message() else {
        return Vec::new();
    };
    (0..usize::from(chart.count))
        .filter(|&region| chart.regions[region].message() == Some(message))
        .collect()
}

/// Steps 3, 4, 5 and 7, from the ready region of T11 or T33 on.
fn fire(
    chart: &ChartValue,
    order: &Order,
    before: MonitorValue,
    first: usize,
) -> (Answer, MonitorValue) {
    let mut after = before;
    // T12 for the message region, then T13 and T14: plain regions until none is ready.
    let mut next = Some(first);
    while let Some(place) = next {
        let region = &chart.regions[place];
        // T12, T15: earlier resets count, the region's own are still to come.
        if let Some(term) = failing_term(region, after.now, &after.resets) {
            // T21.
            let cause = Cause::at(place, term);
            return if region.hot {
                break_round(after, Reason::ConditionFails, cause)
            } else {
                drop_round(chart, after, cause)
            };
        }
        // T12: now it is fired, and its clocks are reset.
        after.fired |= 1 << place;
        reset(&mut after, region.resets);
        next = ready_plain(chart, order, after.fired);
    }
    // T17: the last region was fired, so the round is kept.
    if all_fired(chart, after.fired) {
        after.kept += 1;
        return (Answer::Kept, reopen(chart, after));
    }
    // T28, or else T29.
    if in_prechart(chart, before.fired) && !in_prechart(chart, after.fired) {
        (Answer::Entered, after)
    } else {
        (Answer::Moved, after)
    }
}

/// Resets a set of clocks now.
fn reset(monitor: &mut MonitorValue, clocks: u8) {
    for (clock, moment) in monitor.resets.iter_mut().enumerate() {
        if (clocks >> clock) & 1 == 1 {
            *moment = monitor.now;
        }
    }
}

/// Opens a round (T22). Places beyond the chart's clocks stay 0.
fn reopen(chart: &ChartValue, mut monitor: MonitorValue) -> MonitorValue {
    monitor.fired = 0;
    for clock in 0..usize::from(chart.clocks) {
        monitor.resets[clock] = monitor.now;
    }
    monitor
}

/// Drops the round; the monitor does not keep the cause.
fn drop_round(
    chart: &ChartValue,
    mut monitor: MonitorValue,
    cause: Cause,
) -> (Answer, MonitorValue) {
    monitor.dropped += 1;
    (Answer::Dropped(cause), reopen(chart, monitor))
}

/// T23. Fired regions and reset moments stay as they come here: T24 for reason 1, T25 for
/// reason 2.
fn break_round(mut monitor: MonitorValue, reason: Reason, cause: Cause) -> (Answer, MonitorValue) {
    let known = Break {
        record: monitor.records,
        reason,
        cause,
    };
    monitor.break_record = known.record;
    monitor.reason = reason.number();
    monitor.cause = cause;
    (Answer::Broken(known), monitor)
}
