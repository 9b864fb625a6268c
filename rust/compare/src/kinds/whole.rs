//! Whole logs: `lsc_judge` and the safe `judge` against the reference's.

use super::{filled_places, BEYOND, PLACES};
use crate::difference::{same, Both};
use crate::random::{self, Rng, Size};
use crate::seen::Seen;
use crate::testing;
use lsc::{call, Part};
use lsc_reference::log::{self, Verdict};
use lsc_reference::reader::read_chart;
use lsc_reference::value::{ChartValue, MAX_RECORDS};

/// The kind's name.
pub const NAME: &str = "judge";

pub fn make(rng: &mut Rng) -> (Vec<u8>, Vec<u8>) {
    let size = random::some_size(rng);
    let (bytes, chart) = random::chart(rng, size);
    if rng.chance(35) {
        let hostile = random::hostile_chart_bytes(rng);
        let over = read_chart(&hostile).unwrap_or(chart);
        return (hostile, some_log(rng, &over, size));
    }
    let log = some_log(rng, &chart, size);
    (bytes, log)
}

fn some_log(rng: &mut Rng, chart: &ChartValue, size: Size) -> Vec<u8> {
    if rng.chance(40) {
        return random::hostile_log_bytes(rng, chart);
    }
    let count = rng.below(if size == Size::Large { 120 } else { 40 });
    random::log_bytes(rng, chart, count)
}

/// A refusal's number and its offset.
type Fault = (u8, usize);

/// The number and the eight places of what the reference says: of the chart, and of the log.
fn expected(judged: &Result<Result<Verdict, Fault>, Fault>) -> (u8, [u64; PLACES]) {
    let (part, number, offset) = match *judged {
        Err((number, offset)) => (1, number, offset),
        Ok(Err((number, offset))) => (2, number, offset),
        Ok(Ok(verdict)) => return (0, verdict.numbers().map(u64::from)),
    };
    let mut places = [0; PLACES];
    places[..3].copy_from_slice(&[part, number.into(), offset as u64]);
    (number, places)
}

pub fn compare(chart: &[u8], log: &[u8], seen: &mut Seen) -> Result<(), Both> {
    let value = read_chart(chart);
    let judged = value.map(|value| log::judge(&value, log));
    let (number, numbers) = expected(&judged);
    let mut after = filled_places(PLACES + BEYOND);
    after[..PLACES].copy_from_slice(&numbers);
    let mut out = filled_places(PLACES + BEYOND);
    let answer = call::judge(chart, log, &mut out);
    same("verdict and places", (answer, out), (number, after))?;
    let records = log::read_log(log);
    let checked = records
        .as_ref()
        .map_or(MAX_RECORDS + 1, |records| records.len() as u32);
    same("records checked", testing::check(log), checked)?;
    match judged {
        Ok(judged) => seen.coverage.judged(NAME, log, &judged),
        Err(fault) => seen.coverage.refused_chart(NAME, chart, fault),
    }
    if number != 0 {
        seen.coverage.refusal(number);
    } else if let (Ok(value), Ok(records)) = (value, records) {
        seen.coverage.standing(numbers[0] as u8);
        let after = seen.coverage.taken(NAME, &value, &records);
        seen.coverage.stood(NAME, &value, &after);
    }
    for places in [0, 6, PLACES - 1] {
        let mut out = filled_places(places);
        let answer = call::judge(chart, log, &mut out);
        same("a short out", (answer, out), (12, filled_places(places)))?;
        seen.coverage.refusal(answer);
    }
    let safe = match lsc::judge(chart, log) {
        Ok(verdict) => format!("0 {verdict}"),
        Err(refusal) => {
            let part = if refusal.part == Part::Chart { 1 } else { 2 };
            let number = refusal.number;
            format!("{number} {part} {number} {} 0 0 0 0 0", refusal.offset)
        }
    };
    let words: Vec<String> = numbers.iter().map(u64::to_string).collect();
    same(
        "the safe judge",
        safe,
        format!("{number} {}", words.join(" ")),
    )
}
