//! Saving a chart (D): the bytes of a chart value.

use crate::command::Command::*;
use crate::value::*;
use crate::well_formed::is_given;

/// The most bytes that a chart is saved as (D6).
pub const MAX_BYTES: usize = 1_317;

/// Writes the bytes of a chart to the start of `out`, and answers how many there are. Later bytes
/// stay (D4).
///
/// Or a refusal, which writes nothing (D1): 20, with 0, for a value that is no chart; then 12, with
/// the length needed, if `out` is shorter than that.
pub fn write(chart: &ChartValue, out: &mut [u8]) -> Result<usize, (u8, usize)> {
    let given = chart_bytes(chart).filter(|_| is_given(chart));
    let bytes = given.ok_or((20, 0))?;
    let needed = bytes.len();
    let room = out.get_mut(..needed).ok_or((12, needed))?;
    room.copy_from_slice(&bytes);
    Ok(needed)
}

/// The value command by command (D2), whether it is a chart or not; none if a count is too large
/// for what it counts.
pub fn chart_bytes(chart: &ChartValue) -> Option<Vec<u8>> {
    if chart.prechart > chart.count {
        return None;
    }
    let mut bytes = vec![Heading.byte(), chart.lines, chart.clocks];
    let regions = chart.regions.get(..usize::from(chart.count))?;
    for (place, region) in regions.iter().enumerate() {
        if place == usize::from(chart.prechart) {
            bytes.push(MainChart.byte());
        }
        put_region(region, &mut bytes)?;
    }
    bytes.push(End.byte());
    Some(bytes)
}

/// A region's commands in the order of D3.
fn put_region(region: &RegionValue, bytes: &mut Vec<u8>) -> Option<()> {
    match region.event {
        EventValue::Message(message) => {
            bytes.push(MessageRegion.byte());
            bytes.extend(message.to_bytes());
        }
        EventValue::Plain(lines) => {
            bytes.push(PlainRegion.byte());
            bytes.extend(lines.to_be_bytes());
        }
    }
    for term in region.terms.get(..usize::from(region.term_count))? {
        put_term(term, bytes);
    }
    if region.hot {
        bytes.push(Hot.byte());
    }
    if region.resets != 0 {
        bytes.extend([Resets.byte(), region.resets]);
    }
    if region.rest {
        bytes.push(Rest.byte());
    }
    Some(())
}

fn put_term(term: &TermValue, bytes: &mut Vec<u8>) {
    match term.left {
        LeftValue::Clock(clock) => bytes.extend([ClockTerm.byte(), clock]),
        LeftValue::Difference(first, second) => {
            bytes.extend([DifferenceTerm.byte(), first, second]);
        }
    }
    bytes.push(term.relation);
    bytes.extend(term.n.to_be_bytes());
}
