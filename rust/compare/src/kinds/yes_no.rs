//! Whether a log breaks its chart: `lsc_breaks`, the safe `breaks` and `lsc_test_breaks` against
//! the reference's, which is held against its judging too.

use super::filled_places;
use super::values::some_image;
use crate::asked::Asked;
use crate::difference::{same, Both};
use crate::image::Image;
use crate::random::{self, Rng, Size};
use crate::seen::Seen;
use crate::testing;
use lsc::call::{self, BREAKS_PLACES};
use lsc::{Part, Refusal};
use lsc_reference::log::{breaks, judge, read_log};
use lsc_reference::reader::read_chart;
use lsc_reference::value::ChartValue;

/// The kind's name.
pub const NAME: &str = "yes or no";

/// The name of the kind whose chart is an image.
pub const IMAGE_NAME: &str = "yes or no by image";

/// The most places that are lent.
const MOST_PLACES: usize = 5;

/// A refusal's number and its offset.
type Fault = (u8, usize);

pub fn make(rng: &mut Rng) -> (Vec<u8>, Vec<u8>) {
    let size = random::some_size(rng);
    let (bytes, chart) = random::chart(rng, size);
    if rng.chance(20) {
        let hostile = random::hostile_chart_bytes(rng);
        let over = read_chart(&hostile).unwrap_or(chart);
        return (hostile, some_log(rng, &over, size));
    }
    let log = some_log(rng, &chart, size);
    (bytes, log)
}

pub fn make_image(rng: &mut Rng) -> (Vec<u8>, Vec<u8>) {
    let (chart, image) = some_image(rng);
    let log = some_log(rng, &chart, Size::Small);
    (image, log)
}

fn some_log(rng: &mut Rng, chart: &ChartValue, size: Size) -> Vec<u8> {
    if rng.chance(20) {
        return random::hostile_log_bytes(rng, chart);
    }
    let count = rng.below(if size == Size::Large { 90 } else { 24 });
    random::faulty_log_bytes(rng, chart, count)
}

/// The number and the three places of what the reference says: of the chart, and of the log.
fn expected(asked: &Result<Result<bool, Fault>, Fault>) -> (u8, [u64; BREAKS_PLACES]) {
    let (part, number, offset) = match *asked {
        Err((number, offset)) => (1, number, offset),
        Ok(Err((number, offset))) => (2, number, offset),
        Ok(Ok(broken)) => return (0, [broken.into(), 0, 0]),
    };
    (number, [part, number.into(), offset as u64])
}

/// What the safe wrapper must say.
fn safe_expected(asked: &Result<Result<bool, Fault>, Fault>) -> Result<bool, Refusal> {
    let refused = |part, (number, offset): Fault| Refusal {
        part,
        number,
        offset,
    };
    match *asked {
        Err(fault) => Err(refused(Part::Chart, fault)),
        Ok(Err(fault)) => Err(refused(Part::Log, fault)),
        Ok(Ok(broken)) => Ok(broken),
    }
}

pub fn compare(chart: &[u8], log: &[u8], seen: &mut Seen) -> Result<(), Both> {
    let value = read_chart(chart);
    let asked = value.map(|value| breaks(&value, log));
    let (answer, numbers) = expected(&asked);
    for places in 0..=MOST_PLACES {
        let mut wanted = filled_places(places);
        let mut number = 12;
        if let Some(first) = wanted.get_mut(..BREAKS_PLACES) {
            first.copy_from_slice(&numbers);
            number = answer;
        }
        let mut out = filled_places(places);
        let said = call::breaks(chart, log, &mut out);
        same("yes or no and places", (said, out), (number, wanted))?;
        if number != 0 {
            seen.coverage.refusal(number);
        }
    }
    seen.coverage.asked(NAME, Asked::Short);
    let told = lsc::breaks(chart, log);
    same("the safe yes or no", told, safe_expected(&asked))?;
    match value {
        Ok(value) => check_image(NAME, &value.to_image(), log, seen),
        Err((number, offset)) => {
            seen.coverage.asked(NAME, Asked::Chart(number));
            seen.coverage.refused_chart(NAME, chart, (number, offset));
            Ok(())
        }
    }
}

pub fn compare_image(image: &[u8], log: &[u8], seen: &mut Seen) -> Result<(), Both> {
    check_image(IMAGE_NAME, image, log, seen)?;
    seen.coverage.marked_image(IMAGE_NAME, image);
    Ok(())
}

/// The answer by a chart's image, in a comparison of this kind.
fn check_image(kind: &'static str, image: &[u8], log: &[u8], seen: &mut Seen) -> Result<(), Both> {
    let chart = ChartValue::from_image(image);
    let answer = chart.map_or(Err((20, 0)), |chart| breaks(&chart, log));
    let number = match answer {
        Ok(broken) => broken.into(),
        Err((number, _)) => number,
    };
    let said = testing::breaks(image, log);
    same("yes or no by image", said, number)?;
    match chart {
        Some(chart) if number != 20 => check_verdict(kind, &chart, log, answer, seen),
        _ => {
            seen.coverage.refusal(number);
            seen.coverage.asked(kind, Asked::NoChart);
            Ok(())
        }
    }
}

/// The answer and what judging says: the same of a log that it accepts; of any other its refusal,
/// or yes.
fn check_verdict(
    kind: &'static str,
    chart: &ChartValue,
    log: &[u8],
    answer: Result<bool, Fault>,
    seen: &mut Seen,
) -> Result<(), Both> {
    let judged = judge(chart, log);
    let by_verdict = match judged {
        Ok(verdict) => Ok(verdict.broken.is_some()),
        Err(_) if answer == Ok(true) => answer,
        Err(fault) => Err(fault),
    };
    same("yes or no and the verdict", answer, by_verdict)?;
    seen.coverage.answered(kind, chart, log, &answer, &judged);
    let checked = judged.err().map_or(log.len(), |(_, offset)| offset);
    let records = read_log(&log[..checked]).expect("the first fault is behind them");
    seen.coverage.taken(kind, chart, &records);
    Ok(())
}
