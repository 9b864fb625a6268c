//! A chart's order as masks, made only of a value that accepted bytes give.

use lsc_reference::value::*;

/// The masks that decide readiness and rest. Bit i is region i + 1.
#[derive(Clone, Copy, Debug)]
pub struct Masks {
    pub all: u32,
    pub prechart: u32,
    pub plain: u32,
    pub clocks: u8,
    /// Regions that share a line with this one, earlier in its half, and the prechart for a
    /// main region. A set closed under this relation is closed under "above" too.
    pub above: [u32; MAX_REGIONS],
    /// The main regions that touch each line.
    pub on_line: OnLine,
}

/// The first `count` bits.
fn low_bits(count: u8) -> u32 {
    if count >= 32 {
        u32::MAX
    } else {
        (1 << count) - 1
    }
}

/// Whether the term's clocks and relation are such as a reader writes.
fn term_is_sound(chart: &ChartValue, term: &TermValue) -> bool {
    let clocks_fit = match term.left {
        LeftValue::Clock(clock) => clock < chart.clocks,
        LeftValue::Difference(first, second) => {
            first < chart.clocks && second < chart.clocks && first != second
        }
    };
    clocks_fit && term.relation <= 4
}

/// Whether the region's condition and resets are such as a reader writes.
fn region_is_sound(chart: &ChartValue, region: &RegionValue, main: bool) -> bool {
    let terms = usize::from(region.term_count);
    if terms > MAX_TERMS {
        return false;
    }
    let clock_set = low_bits(chart.clocks) as u8;
    if region.resets & !clock_set != 0 || (region.hot && (terms == 0 || !main)) {
        return false;
    }
    if region.rest && !main {
        return false;
    }
    for (place, term) in region.terms.iter().enumerate() {
        if place >= terms {
            if *term != TermValue::ZERO {
                return false;
            }
            continue;
        }
        if !term_is_sound(chart, term) {
            return false;
        }
    }
    true
}

/// The regions on each line, so far in this half.
pub type OnLine = [u32; MAX_LINES as usize];

/// Puts a region on its lines: those that stood there before; none if no reader writes such
/// an event.
fn put(chart: &ChartValue, region: &RegionValue, bit: u32, on_line: &mut OnLine) -> Option<u32> {
    match region.event {
        EventValue::Message(Message {
            source,
            destination,
            ..
        }) => {
            if source >= chart.lines || destination >= chart.lines || source == destination {
                return None;
            }
            let (source, destination) = (usize::from(source), usize::from(destination));
            let before = on_line[source] | on_line[destination];
            on_line[source] |= bit;
            on_line[destination] |= bit;
            Some(before)
        }
        EventValue::Plain(lines) => {
            let beyond = lines & !(low_bits(chart.lines) as u16) != 0;
            if lines == 0 || beyond || (region.term_count == 0 && region.resets == 0) {
                return None;
            }
            let mut before = 0;
            let mut left = lines;
            while left != 0 {
                let line = left.trailing_zeros() as usize;
                left &= left - 1;
                before |= on_line[line];
                on_line[line] |= bit;
            }
            Some(before)
        }
    }
}

/// Whether region and term are the chart's after a failed condition, and zeros otherwise.
fn cause_fits(chart: &ChartValue, monitor: &MonitorValue) -> bool {
    let Cause { region, term } = monitor.cause;
    if monitor.reason != Reason::ConditionFails.number() {
        return region | term == 0;
    }
    if region == 0 || region > chart.count {
        return false;
    }
    term != 0 && term <= chart.regions[usize::from(region - 1)].term_count
}

impl Masks {
    /// The masks of a chart value; none for refusal 20 (M4).
    pub fn of(chart: &ChartValue) -> Option<Masks> {
        let counts_fit = (2..=16).contains(&chart.lines) && chart.clocks <= 8 && chart.count <= 32;
        if !counts_fit || chart.prechart >= chart.count {
            return None;
        }
        let mut masks = Masks {
            all: low_bits(chart.count),
            prechart: low_bits(chart.prechart),
            plain: 0,
            clocks: chart.clocks,
            above: [0; MAX_REGIONS],
            on_line: [0; MAX_LINES as usize],
        };
        let mut on_line: OnLine = [0; MAX_LINES as usize];
        let mut base = 0;
        for (place, region) in chart.regions.iter().enumerate() {
            if place >= usize::from(chart.count) {
                if *region != RegionValue::ZERO {
                    return None;
                }
                continue;
            }
            if place == usize::from(chart.prechart) {
                on_line = [0; MAX_LINES as usize];
                base = masks.prechart;
            }
            if !region_is_sound(chart, region, place >= usize::from(chart.prechart)) {
                return None;
            }
            let bit = 1 << place;
            let above = put(chart, region, bit, &mut on_line)? | base;
            if matches!(region.event, EventValue::Plain(_)) {
                if above == 0 {
                    return None;
                }
                masks.plain |= bit;
            }
            masks.above[place] = above;
        }
        // The main chart is the half read last.
        masks.on_line = on_line;
        Some(masks)
    }

    /// Whether all above an unfired region are fired.
    pub fn is_ready(&self, fired: u32, place: usize) -> bool {
        self.above[place] & !fired == 0
    }

    /// The lowest ready region among those given, all unfired.
    pub fn lowest_ready(&self, fired: u32, among: u32) -> Option<usize> {
        let mut left = among;
        while left != 0 {
            let place = left.trailing_zeros() as usize;
            if self.is_ready(fired, place) {
                return Some(place);
            }
            left &= left - 1;
        }
        None
    }

    /// Refusal 21's test, for the chart of these masks.
    pub fn is_fit(&self, chart: &ChartValue, monitor: &MonitorValue) -> bool {
        self.fired_fit(monitor.fired)
            && self.resets_fit(monitor)
            && self.break_fits(monitor)
            && cause_fits(chart, monitor)
    }

    /// Whether the fired regions are the chart's, closed upwards and not all.
    fn fired_fit(&self, fired: u32) -> bool {
        if fired & !self.all != 0 || fired == self.all {
            return false;
        }
        let mut left = fired;
        while left != 0 {
            if !self.is_ready(fired, left.trailing_zeros() as usize) {
                return false;
            }
            left &= left - 1;
        }
        true
    }

    /// Whether no reset moment is later than now, and those beyond the chart's clocks are 0.
    fn resets_fit(&self, monitor: &MonitorValue) -> bool {
        let (used, unused) = monitor.resets.split_at(usize::from(self.clocks));
        used.iter().all(|&moment| moment <= monitor.now) && unused.iter().all(|&moment| moment == 0)
    }

    /// Whether the counts and the break go together.
    fn break_fits(&self, monitor: &MonitorValue) -> bool {
        let (fired, records) = (monitor.fired, monitor.records);
        if records > MAX_RECORDS {
            return false;
        }
        let most = 2 * records;
        if monitor.kept > most || monitor.dropped > most - monitor.kept {
            return false;
        }
        match (monitor.broken(), monitor.break_record, monitor.reason) {
            (Some(known), ..) => known.record != 0 && known.record <= records,
            (None, 0, 0) => self.lowest_ready(fired, self.plain & !fired).is_none(),
            _ => false,
        }
    }
}
