//! Names for what saving a chart came to.

use crate::image::Image;
use crate::random::commands;
use lsc_reference::reader::read_chart;
use lsc_reference::value::*;
use lsc_reference::writer::{chart_bytes, MAX_BYTES};
use std::fmt;

/// What saving came to.
#[derive(Clone, Copy, Debug, PartialEq, Eq, PartialOrd, Ord)]
pub enum Saved {
    /// The chart's bytes are refused.
    Chart(u8),
    /// Refused with 20, where the reader refuses the value's commands with this.
    NoChart(u8),
    /// Some region has so many terms.
    Terms(u8),
    /// Some term has this relation.
    Relation(u8),
    /// Two charts that differ in this alone.
    Differ(&'static str),
    /// Anything else.
    Is(&'static str),
}

use Saved::*;

/// What saving must come to, by bytes and by image.
pub const SAVED: [Saved; 40] = [
    Is("refusal 12, no byte"),
    Is("refusal 12, a byte too few"),
    Is("refusal 12, several bytes too few"),
    Is("as many bytes as needed"),
    Is("bytes to spare"),
    Is("an empty prechart"),
    Is("one region"),
    Is("32 regions"),
    Is("1,317 bytes"),
    Is("a message in the prechart"),
    Is("a message in the main chart"),
    Is("a plain region in the prechart"),
    Is("a plain region in the main chart"),
    Is("a label of two bytes"),
    Is("a line above 7"),
    Is("hot, no resets"),
    Is("hot, resets"),
    Is("a term, not hot, resets"),
    Is("resets, no term"),
    Is("all eight clocks reset"),
    Is("cold to rest on, nothing else"),
    Is("cold to rest on, after a term"),
    Is("cold to rest on, after hot"),
    Is("cold to rest on, after resets"),
    Is("a term on a clock"),
    Is("a term on a difference"),
    Is("a clock's term before a difference's"),
    Is("a difference's term before a clock's"),
    Is("a number below 0"),
    Is("a number above 255"),
    Terms(0),
    Terms(1),
    Terms(2),
    Terms(3),
    Terms(4),
    Relation(0),
    Relation(1),
    Relation(2),
    Relation(3),
    Relation(4),
];

/// And by bytes alone.
pub const SAVED_BYTES: [Saved; 32] = [
    Chart(1),
    Chart(2),
    Chart(3),
    Chart(4),
    Chart(5),
    Chart(6),
    Chart(7),
    Chart(8),
    Chart(9),
    Chart(10),
    Chart(11),
    Chart(13),
    Is("the bytes that were read"),
    Is("resets read before a term"),
    Is("resets read before hot"),
    Is("hot read before a term"),
    Is("the mark read before a term"),
    Is("the mark read before hot"),
    Is("the mark read before resets"),
    Is("the same bytes twice"),
    Is("other bytes of one chart"),
    Differ("lines"),
    Differ("clocks"),
    Differ("the main chart's start"),
    Differ("a region's start"),
    Differ("a term's clocks"),
    Differ("a relation"),
    Differ("a number"),
    Differ("the order of terms"),
    Differ("hot"),
    Differ("resets"),
    Differ("rest"),
];

/// And by image alone. The reader's other refusals cannot be: a value has each command in place.
pub const SAVED_VALUES: [Saved; 11] = [
    NoChart(4),
    NoChart(6),
    NoChart(7),
    NoChart(8),
    NoChart(9),
    NoChart(10),
    NoChart(13),
    Is("refusal 20, no image"),
    Is("refusal 20, a count too large"),
    Is("refusal 20, another chart's commands"),
    Is("refusal 20 before 12"),
];

/// What a buffer of so many bytes came to, where so many are needed.
pub fn room_name(room: usize, needed: usize) -> Saved {
    Is(match room {
        0 => "refusal 12, no byte",
        _ if room + 1 == needed => "refusal 12, a byte too few",
        _ if room < needed => "refusal 12, several bytes too few",
        _ if room == needed => "as many bytes as needed",
        _ => "bytes to spare",
    })
}

/// Why an image is refused with 20, and whether 12 would be said of so many bytes.
pub fn refused_names(image: &[u8], room: usize) -> Vec<Saved> {
    let Some(chart) = ChartValue::from_image(image) else {
        return vec![Is("refusal 20, no image")];
    };
    let Some(bytes) = chart_bytes(&chart) else {
        return vec![Is("refusal 20, a count too large")];
    };
    let why = match read_chart(&bytes) {
        Err((number, _)) => NoChart(number),
        Ok(_) => Is("refusal 20, another chart's commands"),
    };
    let mut found = vec![why];
    if room < bytes.len() {
        found.push(Is("refusal 20 before 12"));
    }
    found
}

/// What is in a chart that is saved as so many bytes.
pub fn shape_names(chart: &ChartValue, length: usize) -> Vec<Saved> {
    let regions = &chart.regions[..usize::from(chart.count)];
    let mut found = Vec::new();
    let mut is = |so: bool, name| found.extend(so.then_some(Is(name)));
    is(chart.prechart == 0, "an empty prechart");
    is(chart.count == 1, "one region");
    is(regions.len() == MAX_REGIONS, "32 regions");
    is(length == MAX_BYTES, "1,317 bytes");
    for (place, region) in regions.iter().enumerate() {
        found.push(event_name(region, place >= usize::from(chart.prechart)));
        found.extend(region_names(region));
        found.extend(term_names(region.condition()));
    }
    found
}

fn event_name(region: &RegionValue, main: bool) -> Saved {
    Is(match (region.event, main) {
        (EventValue::Message(_), false) => "a message in the prechart",
        (EventValue::Message(_), true) => "a message in the main chart",
        (EventValue::Plain(_), false) => "a plain region in the prechart",
        (EventValue::Plain(_), true) => "a plain region in the main chart",
    })
}

fn region_names(region: &RegionValue) -> Vec<Saved> {
    let mut found = vec![Terms(region.term_count)];
    let mut is = |so: bool, name| found.extend(so.then_some(Is(name)));
    match region.event {
        EventValue::Message(message) => is(message.label > 0xFF, "a label of two bytes"),
        EventValue::Plain(lines) => is(lines > 0xFF, "a line above 7"),
    }
    let (term, resets) = (region.term_count > 0, region.resets != 0);
    is(region.hot && !resets, "hot, no resets");
    is(region.hot && resets, "hot, resets");
    is(term && !region.hot && resets, "a term, not hot, resets");
    is(!term && resets, "resets, no term");
    is(region.resets == 0xFF, "all eight clocks reset");
    found.extend(region.rest.then(|| rest_name(region)));
    found
}

/// What comes just before a region's mark to rest on.
fn rest_name(region: &RegionValue) -> Saved {
    Is(match (region.resets, region.hot, region.term_count) {
        (1.., ..) => "cold to rest on, after resets",
        (0, true, _) => "cold to rest on, after hot",
        (0, false, 1..) => "cold to rest on, after a term",
        (0, false, 0) => "cold to rest on, nothing else",
    })
}

fn term_names(terms: &[TermValue]) -> Vec<Saved> {
    let mut found = Vec::new();
    for term in terms {
        found.push(Relation(term.relation));
        found.push(Is(match term.left {
            LeftValue::Clock(_) => "a term on a clock",
            LeftValue::Difference(..) => "a term on a difference",
        }));
        found.extend((term.n < 0).then_some(Is("a number below 0")));
        found.extend((term.n > 0xFF).then_some(Is("a number above 255")));
    }
    for pair in terms.windows(2) {
        found.extend(match (pair[0].left, pair[1].left) {
            (LeftValue::Clock(_), LeftValue::Difference(..)) => {
                Some(Is("a clock's term before a difference's"))
            }
            (LeftValue::Difference(..), LeftValue::Clock(_)) => {
                Some(Is("a difference's term before a clock's"))
            }
            _ => None,
        });
    }
    found
}

/// What the bytes that were read have in another order than those that they are saved as.
pub fn order_names(read: &[u8], saved: &[u8]) -> Vec<Saved> {
    if read == saved {
        return vec![Is("the bytes that were read")];
    }
    let parts = commands(read);
    let pairs = parts.windows(2);
    let names = pairs.filter_map(|pair| match (pair[0][0], pair[1][0]) {
        (0x40, 0x30 | 0x31) => Some(Is("resets read before a term")),
        (0x40, 0x32) => Some(Is("resets read before hot")),
        (0x32, 0x30 | 0x31) => Some(Is("hot read before a term")),
        (0x33, 0x30 | 0x31) => Some(Is("the mark read before a term")),
        (0x33, 0x32) => Some(Is("the mark read before hot")),
        (0x33, 0x40) => Some(Is("the mark read before resets")),
        _ => None,
    });
    names.collect()
}

/// A part of a chart, and what takes it away.
type Part = (&'static str, fn(&mut ChartValue));

/// The parts in which alone charts must differ.
const PARTS: [Part; 11] = [
    ("lines", |chart| chart.lines = 0),
    ("clocks", |chart| chart.clocks = 0),
    ("the main chart's start", |chart| chart.prechart = 0),
    ("a region's start", |chart| {
        each_region(chart, |region| region.event = EventValue::Plain(0));
    }),
    ("a term's clocks", |chart| {
        each_term(chart, |term| term.left = LeftValue::Clock(0));
    }),
    ("a relation", |chart| {
        each_term(chart, |term| term.relation = 0);
    }),
    ("a number", |chart| each_term(chart, |term| term.n = 0)),
    ("the order of terms", |chart| {
        each_region(chart, |region| region.terms.sort_by_key(numbers_of));
    }),
    ("hot", |chart| {
        each_region(chart, |region| region.hot = false)
    }),
    ("resets", |chart| {
        each_region(chart, |region| region.resets = 0);
    }),
    ("rest", |chart| {
        each_region(chart, |region| region.rest = false);
    }),
];

fn each_region(chart: &mut ChartValue, change: fn(&mut RegionValue)) {
    chart.regions.iter_mut().for_each(change);
}

fn each_term(chart: &mut ChartValue, change: fn(&mut TermValue)) {
    for region in &mut chart.regions {
        region.terms.iter_mut().for_each(change);
    }
}

/// A term as numbers that can be ordered.
fn numbers_of(term: &TermValue) -> (u8, Option<u8>, u8, i32) {
    let (first, second) = match term.left {
        LeftValue::Clock(clock) => (clock, None),
        LeftValue::Difference(first, second) => (first, Some(second)),
    };
    (first, second, term.relation, term.n)
}

/// What two charts, each with the bytes that were read, have to do with each other, if they are
/// the same or differ in one part alone.
pub fn pair_name(one: (&[u8], &ChartValue), other: (&[u8], &ChartValue)) -> Option<Saved> {
    if one.1 == other.1 {
        return Some(Is(match one.0 == other.0 {
            true => "the same bytes twice",
            false => "other bytes of one chart",
        }));
    }
    let without = |chart: &ChartValue, take: fn(&mut ChartValue)| {
        let mut chart = *chart;
        take(&mut chart);
        chart
    };
    PARTS
        .into_iter()
        .find(|(_, take)| without(one.1, *take) == without(other.1, *take))
        .map(|(part, _)| Differ(part))
}

impl fmt::Display for Saved {
    fn fmt(&self, f: &mut fmt::Formatter<'_>) -> fmt::Result {
        match self {
            Chart(number) => write!(f, "chart, refusal {number}"),
            NoChart(number) => write!(f, "refusal 20, commands refused with {number}"),
            Terms(1) => write!(f, "1 term"),
            Terms(count) => write!(f, "{count} terms"),
            Relation(number) => write!(f, "relation {number}"),
            Differ(part) => write!(f, "charts that differ in {part}"),
            Is(name) => f.write_str(name),
        }
    }
}

#[cfg(test)]
mod tests {
    use super::*;
    use lsc_reference::examples::{longest, CHART_U};

    #[test]
    fn charts_are_named() {
        let chart = read_chart(&CHART_U).unwrap();
        let found = shape_names(&chart, 38);
        let expected = [
            Is("a message in the prechart"),
            Terms(0),
            Is("resets, no term"),
            Is("a message in the main chart"),
            Terms(1),
            Is("hot, no resets"),
            Relation(1),
            Is("a term on a clock"),
        ];
        assert_eq!(found[..8], expected);
        let chart = read_chart(&longest()).unwrap();
        let found = shape_names(&chart, 1_317);
        let expected = ["an empty prechart", "32 regions", "1,317 bytes"].map(Is);
        assert_eq!(found[..3], expected);
        assert!(found.contains(&Is("hot, resets")) && found.contains(&Terms(4)));
        assert!(found.contains(&Is("cold to rest on, after resets")));
    }

    #[test]
    fn rooms_and_refusals_are_named() {
        let rooms = [0, 1, 9, 10, 11].map(|room| room_name(room, 10).to_string());
        let expected = [
            "refusal 12, no byte",
            "refusal 12, several bytes too few",
            "refusal 12, a byte too few",
            "as many bytes as needed",
            "bytes to spare",
        ];
        assert_eq!(rooms, expected);
        assert_eq!(refused_names(&[1], 9), [Is("refusal 20, no image")]);
        let before = Is("refusal 20 before 12");
        let changed = |change: fn(&mut ChartValue), room| {
            let mut chart = read_chart(&CHART_U).unwrap();
            change(&mut chart);
            refused_names(&chart.to_image(), room)
        };
        let hot = |chart: &mut ChartValue| chart.regions[0].hot = true;
        assert_eq!(changed(hot, 38), [NoChart(8), before]);
        assert_eq!(changed(hot, 39), [NoChart(8)]);
        let spare = |chart: &mut ChartValue| chart.regions[9].hot = true;
        let another = Is("refusal 20, another chart's commands");
        assert_eq!(changed(spare, 0), [another, before]);
        let counts = Is("refusal 20, a count too large");
        assert_eq!(changed(|chart| chart.count = 33, 0), [counts]);
    }

    #[test]
    fn orders_and_pairs_are_named() {
        let start = [0x10, 2, 1, 0x50, 0x20, 0, 1, 0, 1];
        let term = [0x30, 0, 1, 0, 0, 0, 5];
        let bytes = |parts: [&[u8]; 3]| [&start, &parts.concat()[..], &[0x7F]].concat();
        let saved = bytes([&term, &[0x32], &[0x40, 1]]);
        let read = bytes([&[0x40, 1], &[0x32], &term]);
        let backwards = ["resets read before hot", "hot read before a term"].map(Is);
        assert_eq!(order_names(&read, &saved), backwards);
        let same = [Is("the bytes that were read")];
        assert_eq!(order_names(&saved, &saved), same);
        let pair = |one: &[u8], other: &[u8]| {
            let charts = [one, other].map(|bytes| read_chart(bytes).unwrap());
            pair_name((one, &charts[0]), (other, &charts[1]))
        };
        assert_eq!(pair(&saved, &saved), Some(Is("the same bytes twice")));
        assert_eq!(pair(&saved, &read), Some(Is("other bytes of one chart")));
        let cold = bytes([&term, &[], &[0x40, 1]]);
        assert_eq!(pair(&saved, &cold), Some(Differ("hot")));
        let plain = bytes([&term, &[], &[]]);
        assert_eq!(pair(&cold, &plain), Some(Differ("resets")));
        assert_eq!(pair(&saved, &plain), None);
        let rests = bytes([&term, &[], &[0x33]]);
        assert_eq!(pair(&rests, &plain), Some(Differ("rest")));
        let early = bytes([&[0x33], &term, &[]]);
        let mark_first = [Is("the mark read before a term")];
        assert_eq!(order_names(&early, &rests), mark_first);
    }
}
