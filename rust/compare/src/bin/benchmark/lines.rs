//! The plot's lines: milliseconds against the number of records.

use crate::subject::{proved, reference, scan, Subject, ROUNDS};
use lsc_compare::measure::{interleaved, median};
use lsc_compare::plot::Line;

/// Thousands of records.
const THOUSANDS: [usize; 10] = [1, 2, 5, 10, 20, 50, 100, 200, 500, 1_000];

/// Both judges and the scan; the scan alone does not depend on the chart, so the large
/// chart's stands for both.
pub fn of(subject: &Subject) -> Vec<Line> {
    let small = subject.value.count < 32;
    let names = ["proved judge", "reference judge", "bare scan"];
    let colours = ["#1f5fa8", "#d9772b", "#777777"];
    let mut lines: Vec<Line> = names
        .iter()
        .zip(colours)
        .map(|(name, colour)| Line {
            name: format!("{name}, {}", subject.name),
            colour,
            dashed: small,
            points: Vec::new(),
        })
        .collect();
    for thousands in THOUSANDS {
        let count = 1_000 * thousands;
        let log = subject.first_records(count);
        let chart = &subject.chart;
        let repeats = (100 / thousands).max(1);
        let times = interleaved(
            ROUNDS,
            &mut [
                &mut || (0..repeats).for_each(|_| proved(chart, log)),
                &mut || (0..repeats).for_each(|_| reference(chart, log)),
                &mut || (0..repeats).for_each(|_| scan(log)),
            ],
        );
        for (line, times) in lines.iter_mut().zip(&times) {
            let milliseconds = median(times) * 1e3 / repeats as f64;
            line.points.push((count as f64, milliseconds));
        }
    }
    if small {
        lines.pop();
    }
    lines
}
