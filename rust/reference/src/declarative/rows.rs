//! Rows (W1), and which of them is lawful for a stretch (W3).

use crate::value::*;
use std::collections::BTreeSet;

/// A stretch (W2).
#[derive(Clone, Copy)]
pub struct Stretch<'a> {
    pub records: &'a [RecordValue],
    pub opening: u32,
}

/// A chart with all rows of its regions.
pub struct Rows<'a> {
    chart: &'a ChartValue,
    above: Vec<BTreeSet<usize>>,
    all: Vec<Vec<usize>>,
}

/// A row over a stretch: its regions, each with its record's place in the stretch.
pub struct Laid<'a> {
    chart: &'a ChartValue,
    row: &'a [usize],
    records: Vec<usize>,
    stretch: Stretch<'a>,
    /// Whether the row has a region for each of the stretch's chart messages.
    whole: bool,
}

/// All rows over `count` regions (W1): permutations of subsets.
fn all_rows(count: usize) -> Vec<Vec<usize>> {
    let mut rows: Vec<Vec<usize>> = vec![Vec::new()];
    let mut next = 0;
    while next < rows.len() {
        for region in 0..count {
            if !rows[next].contains(&region) {
                let mut longer = rows[next].clone();
                longer.push(region);
                rows.push(longer);
            }
        }
        next += 1;
    }
    rows
}

/// Every region's regions above (O3), found by walking up until nothing is added.
fn regions_above(chart: &ChartValue) -> Vec<BTreeSet<usize>> {
    let prechart = usize::from(chart.prechart);
    let event = |region: usize| &chart.regions[region].event;
    let directly = |b: usize| -> BTreeSet<usize> {
        let from = if b < prechart { 0 } else { prechart };
        (from..b)
            .filter(|&a| event(a).shares_line_with(event(b)))
            .collect()
    };
    (0..usize::from(chart.count))
        .map(|b| {
            let mut found = BTreeSet::new();
            let mut to_visit: Vec<usize> = directly(b).into_iter().collect();
            while let Some(a) = to_visit.pop() {
                if found.insert(a) {
                    to_visit.extend(directly(a));
                }
            }
            if b >= prechart {
                found.extend(0..prechart);
            }
            found
        })
        .collect()
}

impl<'a> Rows<'a> {
    /// The chart must be an accepted one, and small: its rows are all held.
    pub fn of(chart: &'a ChartValue) -> Rows<'a> {
        Rows {
            chart,
            above: regions_above(chart),
            all: all_rows(usize::from(chart.count)),
        }
    }

    /// How many regions the chart has.
    pub(super) fn count(&self) -> usize {
        self.chart.count.into()
    }

    /// How many clocks the chart has.
    pub(super) fn clocks(&self) -> u8 {
        self.chart.clocks
    }

    /// Whether the row has every prechart region.
    pub(super) fn has_prechart(&self, row: &[usize]) -> bool {
        (0..usize::from(self.chart.prechart)).all(|region| row.contains(&region))
    }

    /// Whether a row with every prechart region may be rested on (J13). A line takes its heat from
    /// the main regions in the order of the row; it counts if one of them is not in it.
    pub(super) fn may_rest(&self, row: &[usize]) -> bool {
        let main = usize::from(self.chart.prechart)..self.count();
        (0..self.chart.lines).all(|line| {
            let on_line =
                |&region: &usize| main.contains(&region) && self.region(region).event.touches(line);
            let stand: Vec<usize> = row.iter().copied().filter(on_line).collect();
            match stand.last() {
                _ if stand.len() == main.clone().filter(on_line).count() => true,
                None => false,
                Some(&last) => self.region(last).rest,
            }
        })
    }

    fn region(&self, place: usize) -> &RegionValue {
        &self.chart.regions[place]
    }

    /// Whether the record is a chart message (T7).
    pub(super) fn is_chart_message(&self, record: &RecordValue) -> bool {
        match record.message() {
            None => false,
            Some(sent) => {
                (0..self.count()).any(|region| self.region(region).message() == Some(sent))
            }
        }
    }

    /// The places in the stretch of its chart messages.
    fn chart_messages(&self, records: &[RecordValue]) -> Vec<usize> {
        (0..records.len())
            .filter(|&place| self.is_chart_message(&records[place]))
            .collect()
    }

    /// The row over the stretch, each region with its record (W7). None unless the message
    /// regions match, as in W4, the first of the stretch's chart messages, or if a plain region
    /// has no record.
    pub(super) fn lay<'b>(&'b self, row: &'b [usize], stretch: Stretch<'b>) -> Option<Laid<'b>> {
        let mut left = self.chart_messages(stretch.records).into_iter();
        let mut current = None;
        let mut records = Vec::new();
        for &region in row {
            if let Some(carried) = self.region(region).message() {
                let place = left.next()?;
                if stretch.records[place].message() != Some(carried) {
                    return None;
                }
                current = Some(place);
            }
            records.push(current?);
        }
        Some(Laid {
            chart: self.chart,
            row,
            records,
            stretch,
            whole: left.next().is_none(),
        })
    }

    /// W5: nothing above a region is missing before it.
    fn follows(&self, row: &[usize]) -> bool {
        (0..row.len()).all(|place| {
            self.above[row[place]]
                .iter()
                .all(|a| row[..place].contains(a))
        })
    }

    /// W6: no plain region is late or missing.
    fn prompt(&self, row: &[usize]) -> bool {
        (0..=row.len()).all(|place| {
            let stand = &row[..place];
            let due = (0..self.count()).find(|region| {
                self.region(*region).message().is_none()
                    && !stand.contains(region)
                    && self.above[*region].iter().all(|a| stand.contains(a))
            });
            match due {
                None => true,
                Some(lowest) => row.get(place) == Some(&lowest),
            }
        })
    }

    /// Whether the row is lawful for the stretch (W3). With `spare_last`, the conditions of the
    /// last record's regions are waived (W18).
    fn is_lawful(&self, row: &[usize], stretch: Stretch, spare_last: bool) -> bool {
        let Some(laid) = self.lay(row, stretch) else {
            return false;
        };
        let spared = |place: usize| spare_last && laid.records[place] + 1 == stretch.records.len();
        laid.whole
            && self.follows(row)
            && self.prompt(row)
            && (0..row.len()).all(|place| spared(place) || laid.failing_term(place).is_none())
    }

    /// The stretch's lawful row. That there is no other (W9, W18) is asserted.
    pub(super) fn lawful_row(&self, stretch: Stretch, spare_last: bool) -> Option<&[usize]> {
        let mut lawful = self
            .all
            .iter()
            .filter(|row| self.is_lawful(row, stretch, spare_last));
        let row = lawful.next();
        assert!(lawful.next().is_none(), "a stretch has two lawful rows");
        row.map(Vec::as_slice)
    }
}

impl Laid<'_> {
    pub(super) fn region(&self, place: usize) -> &RegionValue {
        &self.chart.regions[self.row[place]]
    }

    fn time(&self, place: usize) -> u32 {
        self.stretch.records[self.records[place]].time()
    }

    /// A clock's last reset among the first `place` regions of the row, or the opening.
    pub(super) fn last_reset(&self, place: usize, clock: u8) -> u32 {
        (0..place)
            .rev()
            .find(|&earlier| self.region(earlier).resets & (1 << clock) != 0)
            .map_or(self.stretch.opening, |earlier| self.time(earlier))
    }

    /// The lowest place (from 0) of a term that does not hold in the condition at a place of the
    /// row (W8); none if all hold.
    pub(super) fn failing_term(&self, place: usize) -> Option<usize> {
        let now = i64::from(self.time(place));
        let value = |clock: u8| now - i64::from(self.last_reset(place, clock));
        let terms = self.region(place).condition();
        (0..terms.len())
            .filter(|&term| !terms[term].holds(value))
            .min()
    }
}
