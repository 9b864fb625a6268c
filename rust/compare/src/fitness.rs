//! Names for what of M10 a monitor tests: counts of rounds above its records, and what alone
//! makes it unfit.

use lsc_reference::monitor::is_fit;
use lsc_reference::value::*;

/// Counts above the records that M10 allows.
pub const FIT: [&str; 2] = ["counts below twice the records", "counts twice the records"];

/// What M10 does not allow: regions and terms, and counts.
pub const UNFIT: [&str; 14] = [
    "zeros with reason 2",
    "region 0",
    "region beyond the chart",
    "region beyond 32",
    "term 0",
    "term beyond the region",
    "region without a break",
    "term without a break",
    "both without a break",
    "region with reason 1",
    "term with reason 1",
    "both with reason 1",
    "counts one above twice the records",
    "counts whose sum is small in 32 bits",
];

/// The name of a fit monitor's counts, if they are above its records.
pub fn fit(monitor: &MonitorValue) -> Option<&'static str> {
    let (ended, records) = (ended(monitor), u64::from(monitor.records));
    if ended <= records {
        None
    } else if ended < 2 * records {
        Some("counts below twice the records")
    } else {
        Some("counts twice the records")
    }
}

/// What is wrong with an unfit monitor of the chart: its region and term, or its counts, if
/// nothing else of it is unfit.
pub fn unfit(chart: &ChartValue, monitor: &MonitorValue) -> Option<&'static str> {
    unfit_cause(chart, monitor).or_else(|| unfit_counts(chart, monitor))
}

/// Kept and dropped rounds together.
fn ended(monitor: &MonitorValue) -> u64 {
    u64::from(monitor.kept) + u64::from(monitor.dropped)
}

fn unfit_cause(chart: &ChartValue, monitor: &MonitorValue) -> Option<&'static str> {
    let Cause { region, term } = monitor.cause;
    let name = match (monitor.reason, region, term) {
        (2, 0, 0) => "zeros with reason 2",
        (2, 0, _) => "region 0",
        (2, 33.., _) => "region beyond 32",
        (2, ..) if region > chart.count => "region beyond the chart",
        (2, _, 0) => "term 0",
        (2, ..) => "term beyond the region",
        (0, _, 0) => "region without a break",
        (0, 0, _) => "term without a break",
        (0, ..) => "both without a break",
        (1, _, 0) => "region with reason 1",
        (1, 0, _) => "term with reason 1",
        (1, ..) => "both with reason 1",
        _ => return None,
    };
    let cause = match monitor.reason {
        2 => {
            let with_term = chart.regions.iter().position(|of| of.term_count > 0)?;
            Cause::at(with_term, 0)
        }
        _ => Cause::NONE,
    };
    is_fit(chart, &MonitorValue { cause, ..*monitor }).then_some(name)
}

fn unfit_counts(chart: &ChartValue, monitor: &MonitorValue) -> Option<&'static str> {
    let (ended, most) = (ended(monitor), 2 * u64::from(monitor.records));
    let name = if ended == most + 1 {
        "counts one above twice the records"
    } else if ended > most && ended % (1 << 32) <= most {
        "counts whose sum is small in 32 bits"
    } else {
        return None;
    };
    let few = MonitorValue {
        kept: 0,
        dropped: 0,
        ..*monitor
    };
    is_fit(chart, &few).then_some(name)
}
