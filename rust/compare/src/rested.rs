//! Names for what marks to rest on came to (C20): standings, refused bytes, refused values.

use crate::image::{mark_place, Image};
use crate::random::commands;
use lsc_reference::log::verdict;
use lsc_reference::monitor::has;
use lsc_reference::value::*;
use lsc_reference::well_formed::is_given;

/// What a chart with a mark must come to while its main chart is owed: why it may rest or not.
pub const STANDS: [&str; 11] = [
    "4, every line counts",
    "4, a line has all fired",
    "4, a line has no main region",
    "4, two lines with other last regions",
    "4, an unmarked one fired before on a line",
    "4, a plain region is a line's last",
    "2, nothing of the main chart fired",
    "2, a line with nothing fired, the others cold",
    "2, a hot line, the others cold",
    "2, a marked one fired before on the hot line",
    "2, a plain region is the hot line's last",
];

/// What bytes with a 33 must be refused for.
pub const MISPLACED: [&str; 8] = [
    "3, 33 first of all",
    "3, 33 before any region",
    "3, 33 after 50 and an empty prechart",
    "3, 33 after 50 and a prechart",
    "3, a second 33 in a region",
    "13, 33 in the prechart",
    "6, a plain region with 33 alone",
    "7, hot and 33 without a term",
];

/// What images with a mark must come to.
pub const MARKED_IMAGES: [&str; 5] = [
    "20, only for a mark in the prechart",
    "20, only for a mark in a spare place",
    "20, only for a byte that is no mark",
    "20, only for the byte after a mark",
    "a chart with a mark",
];

/// What charts with a mark must come to beside the same ones without.
pub const WITHOUT: [&str; 5] = [
    "judged 4 for 2",
    "judged 2 for 2",
    "judged broken for broken",
    "live 4 for 2",
    "live 2 for 2",
];

/// A line's main regions and those of them that are fired, both by number.
struct Line {
    all: Vec<usize>,
    fired: Vec<usize>,
}

impl Line {
    fn of(chart: &ChartValue, fired: u32, line: u8) -> Line {
        let main = usize::from(chart.prechart)..usize::from(chart.count);
        let touch = main.filter(|&region| chart.regions[region].event.touches(line));
        let all: Vec<usize> = touch.collect();
        let fired = all.iter().copied().filter(|&region| has(fired, region));
        Line {
            fired: fired.collect(),
            all,
        }
    }

    fn counts(&self) -> bool {
        self.fired.len() < self.all.len()
    }
}

/// Why a fit monitor of a chart with a mark stands in 2 or in 4; nothing of any other.
pub fn stand_names(chart: &ChartValue, monitor: &MonitorValue) -> Vec<&'static str> {
    if !has_mark(chart) {
        return Vec::new();
    }
    let lines: Vec<Line> = (0..chart.lines)
        .map(|line| Line::of(chart, monitor.fired, line))
        .collect();
    match verdict(chart, monitor).standing {
        4 => resting_names(chart, &lines),
        2 => owed_names(chart, &lines),
        _ => Vec::new(),
    }
}

fn resting_names(chart: &ChartValue, lines: &[Line]) -> Vec<&'static str> {
    let regions = &chart.regions;
    let counting = || lines.iter().filter(|line| line.counts());
    let lasts: Vec<usize> = counting()
        .filter_map(|line| line.fired.last().copied())
        .collect();
    let unmarked_before = counting().any(|line| line.fired.iter().any(|&of| !regions[of].rest));
    named([
        (counting().count() == lines.len(), "4, every line counts"),
        (
            lines
                .iter()
                .any(|line| !line.all.is_empty() && !line.counts()),
            "4, a line has all fired",
        ),
        (
            lines.iter().any(|line| line.all.is_empty()),
            "4, a line has no main region",
        ),
        (
            lasts.iter().any(|last| *last != lasts[0]),
            "4, two lines with other last regions",
        ),
        (unmarked_before, "4, an unmarked one fired before on a line"),
        (
            lasts.iter().any(|&last| regions[last].message().is_none()),
            "4, a plain region is a line's last",
        ),
    ])
}

fn owed_names(chart: &ChartValue, lines: &[Line]) -> Vec<&'static str> {
    let regions = &chart.regions;
    let counting = || lines.iter().filter(|line| line.counts());
    let last = |line: &Line| line.fired.last().map(|&last| &regions[last]);
    let cold = counting().any(|line| last(line).is_some_and(|of| of.rest));
    let empty = counting().any(|line| line.fired.is_empty());
    let hot: Vec<&Line> = counting()
        .filter(|line| last(line).is_some_and(|of| !of.rest))
        .collect();
    named([
        (
            lines.iter().all(|line| line.fired.is_empty()),
            "2, nothing of the main chart fired",
        ),
        (
            empty && hot.is_empty() && cold,
            "2, a line with nothing fired, the others cold",
        ),
        (
            !empty && !hot.is_empty() && cold,
            "2, a hot line, the others cold",
        ),
        (
            hot.iter()
                .any(|line| line.fired.iter().any(|&of| regions[of].rest)),
            "2, a marked one fired before on the hot line",
        ),
        (
            hot.iter()
                .any(|line| last(line).is_some_and(|of| of.message().is_none())),
            "2, a plain region is the hot line's last",
        ),
    ])
}

/// The names of what is so.
fn named<const COUNT: usize>(names: [(bool, &'static str); COUNT]) -> Vec<&'static str> {
    let so = names.into_iter().filter(|(so, _)| *so);
    so.map(|(_, name)| name).collect()
}

/// Whether a region in use is marked.
pub fn has_mark(chart: &ChartValue) -> bool {
    let used = usize::from(chart.count).min(MAX_REGIONS);
    chart.regions[..used].iter().any(|region| region.rest)
}

/// The value without its marks, in spare places too.
pub fn without_marks(chart: &ChartValue) -> ChartValue {
    let mut chart = *chart;
    for region in &mut chart.regions {
        region.rest = false;
    }
    chart
}

fn starts_region(command: &[u8]) -> bool {
    matches!(command[0], 0x20 | 0x21)
}

/// What a 33 has to do with the refusal of a chart's bytes, if it has.
pub fn refused_name(bytes: &[u8], (number, offset): (u8, usize)) -> Option<&'static str> {
    match (number, bytes.get(offset)) {
        (13, _) => Some("13, 33 in the prechart"),
        (3, Some(0x33)) => Some(misplaced_name(&commands(&bytes[..offset]))),
        (6, _) if is_marked(&bytes[offset..]) => Some("6, a plain region with 33 alone"),
        (7, _) if is_marked(&bytes[offset..]) => Some("7, hot and 33 without a term"),
        _ => None,
    }
}

/// The way in which a 33 after these commands is out of place.
fn misplaced_name(earlier: &[Vec<u8>]) -> &'static str {
    let main = earlier.iter().rposition(|command| command[0] == 0x50);
    let (prechart, half) = earlier.split_at(main.unwrap_or(0));
    if earlier.is_empty() {
        "3, 33 first of all"
    } else if half.iter().any(|command| starts_region(command)) {
        "3, a second 33 in a region"
    } else if main.is_none() {
        "3, 33 before any region"
    } else if prechart.iter().any(|command| starts_region(command)) {
        "3, 33 after 50 and a prechart"
    } else {
        "3, 33 after 50 and an empty prechart"
    }
}

/// Whether the region that starts these bytes has a 33.
fn is_marked(bytes: &[u8]) -> bool {
    let parts = commands(bytes);
    let own = parts[1..].iter().take_while(|part| !closes(part));
    own.into_iter().any(|part| part[0] == 0x33)
}

fn closes(command: &[u8]) -> bool {
    matches!(command[0], 0x20 | 0x21 | 0x50 | 0x7F)
}

/// What the marks of an image come to.
pub fn image_names(image: &[u8]) -> Vec<&'static str> {
    match ChartValue::from_image(image) {
        Some(chart) => value_names(&chart),
        None => byte_names(image),
    }
}

/// What the marks of a value come to, if it would be a chart without them.
fn value_names(chart: &ChartValue) -> Vec<&'static str> {
    if !is_given(&without_marks(chart)) {
        return Vec::new();
    }
    let marked = |from: u8, to: usize| {
        let regions = &chart.regions[usize::from(from)..to];
        regions.iter().any(|region| region.rest)
    };
    let early = marked(0, chart.prechart.into());
    let main = marked(chart.prechart, chart.count.into());
    let spare = marked(chart.count, MAX_REGIONS);
    named([
        (early && !spare, "20, only for a mark in the prechart"),
        (spare && !early, "20, only for a mark in a spare place"),
        (main && !early && !spare, "a chart with a mark"),
    ])
}

/// What makes bytes no image, if it is a mark's byte or the one after it alone.
fn byte_names(image: &[u8]) -> Vec<&'static str> {
    let is_chart_without = |beside: usize| {
        let mut image = image.to_vec();
        for region in 0..MAX_REGIONS {
            if let Some(byte) = image.get_mut(mark_place(region) + beside) {
                *byte = 0;
            }
        }
        ChartValue::from_image(&image).is_some_and(|chart| is_given(&chart))
    };
    named([
        (is_chart_without(0), "20, only for a byte that is no mark"),
        (is_chart_without(1), "20, only for the byte after a mark"),
    ])
}

#[cfg(test)]
mod tests {
    use super::*;
    use lsc_reference::examples::PAUSED;
    use lsc_reference::reader::read_chart;

    fn paused() -> ChartValue {
        read_chart(&PAUSED).unwrap()
    }

    /// The names for the sample with these regions fired.
    fn with(regions: &[u32]) -> Vec<&'static str> {
        let monitor = MonitorValue {
            fired: regions.iter().map(|region| 1 << (region - 1)).sum(),
            ..MonitorValue::ZERO
        };
        stand_names(&paused(), &monitor)
    }

    #[test]
    fn standings_are_named() {
        assert_eq!(with(&[]), [""; 0]);
        assert_eq!(with(&[1]), ["2, nothing of the main chart fired"]);
        let nothing = "2, a line with nothing fired, the others cold";
        assert_eq!(with(&[1, 2]), [nothing]);
        assert_eq!(with(&[1, 2, 3]), ["2, a hot line, the others cold"]);
        let paused = [
            "4, a line has all fired",
            "4, two lines with other last regions",
            "4, an unmarked one fired before on a line",
        ];
        assert_eq!(with(&[1, 2, 3, 4]), paused);
        let gone_on = [
            "2, a hot line, the others cold",
            "2, a marked one fired before on the hot line",
        ];
        assert_eq!(with(&[1, 2, 3, 4, 5]), gone_on);
    }

    #[test]
    fn refusals_are_named() {
        let region = [0x20, 0, 1, 0, 1];
        let named = |parts: &[&[u8]]| {
            let bytes = [&[0x10, 2, 1], &parts.concat()[..]].concat();
            refused_name(&bytes, read_chart(&bytes).unwrap_err())
        };
        assert_eq!(refused_name(&[0x33], (3, 0)), Some(MISPLACED[0]));
        assert_eq!(named(&[&[0x33]]), Some(MISPLACED[1]));
        assert_eq!(named(&[&[0x50, 0x33]]), Some(MISPLACED[2]));
        assert_eq!(named(&[&region, &[0x50, 0x33]]), Some(MISPLACED[3]));
        let second = [&[0x50], &region[..], &[0x33, 0x33]];
        assert_eq!(named(&second), Some(MISPLACED[4]));
        assert_eq!(named(&[&region, &[0x33]]), Some(MISPLACED[5]));
        let plain = [0x50, 0x21, 0, 1, 0x33, 0x7F];
        assert_eq!(named(&[&region, &plain]), Some(MISPLACED[6]));
        let hot = [&[0x50], &region[..], &[0x33, 0x32, 0x7F]];
        assert_eq!(named(&hot), Some(MISPLACED[7]));
        // The mark is the next region's.
        let next = [&[0x50], &region[..], &[0x32], &region, &[0x33]];
        assert_eq!(named(&next), None);
        assert_eq!(named(&[&[0x32]]), None);
    }

    #[test]
    fn images_are_named() {
        let with = |change: fn(&mut ChartValue)| {
            let mut chart = paused();
            change(&mut chart);
            image_names(&chart.to_image())
        };
        assert_eq!(with(|_| {}), [MARKED_IMAGES[4]]);
        assert_eq!(
            with(|chart| chart.regions[0].rest = true),
            [MARKED_IMAGES[0]]
        );
        assert_eq!(
            with(|chart| chart.regions[6].rest = true),
            [MARKED_IMAGES[1]]
        );
        assert_eq!(with(|chart| chart.lines = 1), [""; 0]);
        let damaged = |region: usize, beside: usize, byte: u8| {
            let mut image = paused().to_image();
            image[mark_place(region) + beside] = byte;
            image_names(&image)
        };
        assert_eq!(damaged(1, 0, 2), [MARKED_IMAGES[2]]);
        assert_eq!(damaged(31, 1, 1), [MARKED_IMAGES[3]]);
        assert_eq!(image_names(&[]), [""; 0]);
    }
}
