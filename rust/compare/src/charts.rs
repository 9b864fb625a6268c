//! Fixed charts, and long logs that mostly keep their rounds.

use crate::fast::{Plan, State};
use crate::random::{self, Rng, Size};
use lsc_reference::examples::CHART_U;
use lsc_reference::log::{read_log, write_log};
use lsc_reference::reader::read_chart;
use lsc_reference::record::{LogRecord, RawRecord, Stamp};
use lsc_reference::value::*;

/// After m1 with x at least 3: m2 with x at least 2, and m3, in any order.
const EITHER_ORDER: [u8; 35] = [
    0x10, 4, 1, 0x20, 1, 2, 0, 1, 0x30, 0, 3, 0, 0, 0, 3, 0x50, 0x20, 1, 0, 0, 2, 0x30, 0, 3, 0, 0,
    0, 2, 0x32, 0x20, 2, 3, 0, 3, 0x7F,
];

/// The chart of X17.
pub const TWO_THEN_ONE: [u8; 20] = [
    0x10, 2, 0, 0x20, 0, 1, 0, 1, 0x20, 0, 1, 0, 2, 0x50, 0x20, 1, 0, 0, 3, 0x7F,
];

/// The same message twice in the prechart, a plain region as the main chart's first.
const SENT_AGAIN: [u8; 51] = [
    0x10, 2, 2, 0x20, 0, 1, 0, 1, 0x40, 3, 0x20, 0, 1, 0, 1, 0x30, 1, 3, 0, 0, 0, 2, 0x40, 2, 0x50,
    0x21, 0, 1, 0x31, 0, 1, 1, 0, 0, 0, 9, 0x32, 0x20, 1, 0, 0, 2, 0x30, 1, 1, 0, 0, 0, 5, 0x32,
    0x7F,
];

/// The prechart's only message makes a plain region of the main chart ready: x at least 3, hot.
const SETTLES_AT_ONCE: [u8; 26] = [
    0x10, 2, 1, 0x20, 0, 1, 0, 1, 0x50, 0x21, 0, 1, 0x30, 0, 3, 0, 0, 0, 3, 0x32, 0x20, 1, 0, 0, 2,
    0x7F,
];

/// No prechart; the first and the last region are ordered by way of the middle one (O4).
const THROUGH_A_THIRD: [u8; 20] = [
    0x10, 4, 0, 0x50, 0x20, 0, 1, 0, 1, 0x20, 1, 2, 0, 2, 0x20, 2, 3, 0, 3, 0x7F,
];

/// Two messages open the prechart: x restarts when the first is sent again, so that it moves; the
/// second is followed by a plain region with x at least 2, which then fails. A third is below all.
pub const TWO_OPENINGS: [u8; 42] = [
    0x10, 4, 1, 0x20, 0, 1, 0, 1, 0x30, 0, 1, 0, 0, 0, 30, 0x20, 2, 3, 0, 2, 0x21, 0, 4, 0x30, 0,
    3, 0, 0, 0, 2, 0x20, 1, 2, 0, 3, 0x50, 0x20, 1, 0, 0, 4, 0x7F,
];

/// Two messages on each of two pairs of lines; it may rest where both first ones were the last.
const RESTS_BETWEEN: [u8; 32] = [
    0x10, 4, 0, 0x20, 0, 1, 0, 1, 0x50, 0x20, 1, 0, 0, 2, 0x33, 0x20, 2, 3, 0, 3, 0x33, 0x20, 0, 1,
    0, 4, 0x20, 3, 2, 0, 5, 0x7F,
];

/// Small charts for trying every row.
pub const SMALL: [&[u8]; 8] = [
    &CHART_U,
    &EITHER_ORDER,
    &TWO_THEN_ONE,
    &SENT_AGAIN,
    &SETTLES_AT_ONCE,
    &THROUGH_A_THIRD,
    &TWO_OPENINGS,
    &RESTS_BETWEEN,
];

/// One of these, or a random one as small: its bytes and its value.
pub fn some_small(rng: &mut Rng) -> (Vec<u8>, ChartValue) {
    if rng.chance(70) {
        return random::chart(rng, Size::Tiny);
    }
    let bytes = rng.pick(&SMALL).to_vec();
    let chart = read_chart(&bytes).expect("every small chart is read");
    (bytes, chart)
}

/// What [`large`] makes, in words.
pub const LARGE: &str = "32 regions (8 in the prechart, 24 in the main chart; every fourth is \
plain), 16 lines, 8 clocks, four terms in every region, one reset each, main conditions hot";

/// A chart with every region used and four terms in each, all of which hold unless a round
/// takes more than 600 ticks.
pub fn large() -> Vec<u8> {
    let mut bytes = vec![0x10, 16, 8];
    for place in 0..32u8 {
        if place == 8 {
            bytes.push(0x50);
        }
        if place % 4 == 3 {
            // Below the two message regions before it.
            let lines: u16 = 0b1111 << (2 * (place - 2) % 16);
            bytes.push(0x21);
            bytes.extend(lines.to_be_bytes());
        } else {
            bytes.extend([0x20, 2 * place % 16, (2 * place + 1) % 16, 0, place]);
        }
        let (c, d) = (place % 8, (place + 3) % 8);
        bytes.extend([0x30, c, 1, 0, 0, 2, 88]);
        bytes.extend([0x30, d, 3, 0, 0, 0, 0]);
        bytes.extend([0x31, c, d, 1, 0, 0, 2, 88]);
        bytes.extend([0x31, d, c, 3, 0xFF, 0xFF, 0xFD, 0xA8]);
        if place >= 8 {
            bytes.push(0x32);
        }
        bytes.extend([0x40, 1 << c]);
    }
    bytes.push(0x7F);
    bytes
}

/// What [`keeping_log`] makes, in words.
pub const LOG: &str = "4 % records of time, 4 % foreign messages, the rest messages that some \
ready region awaits, in any order, 0 to 3 ticks apart; 5 % of the rounds dropped at their opening";

/// A log of `count` records that keeps most rounds and breaks none.
pub fn keeping_log(chart: &ChartValue, count: usize, seed: u64) -> Vec<u8> {
    let plan = Plan::of(chart).expect("an accepted chart");
    let mut rng = Rng::new(seed);
    let mut state = State::FRESH;
    let mut log = Vec::with_capacity(9 * count);
    for _ in 0..count {
        let record = next_record(&mut rng, chart, &plan, &state);
        plan.take_record(&mut state, &record);
        log.extend(record.to_bytes());
    }
    assert_eq!(state.broken, None, "the log breaks its chart");
    log
}

/// A plain log's records with raw stamps, the first of which is this one.
pub fn raw_log(log: &[u8], first: u32) -> Vec<u8> {
    let records = read_log(log).expect("the log has no fault");
    let start = records.first().map_or(0, RecordValue::time);
    let raw = records.iter().map(|record| RawRecord {
        message: record.message(),
        stamp: Stamp(first.wrapping_add(record.time() - start)),
    });
    raw.flat_map(|record| LogRecord::Raw(record).to_bytes())
        .collect()
}

/// The given log with one record changed so that it breaks its chart, one with a prechart, as
/// soon as the main chart is owed from record `from` (from 0) on: the message of region 1 comes
/// once more.
pub fn breaking_log(chart: &ChartValue, log: &[u8], from: usize) -> Vec<u8> {
    let plan = Plan::of(chart).expect("an accepted chart");
    let mut records = read_log(log).expect("the log has no fault");
    let mut state = State::FRESH;
    for (place, record) in records.iter_mut().enumerate() {
        let again = message(&chart.regions[0], record.time());
        if place >= from {
            if let Answer::Broken(_) = plan.take_record(&mut state.clone(), &again) {
                *record = again;
                break;
            }
        }
        plan.take_record(&mut state, record);
    }
    write_log(&records)
}

fn next_record(rng: &mut Rng, chart: &ChartValue, plan: &Plan, state: &State) -> RecordValue {
    let time = state.now() + rng.below(4) as u32;
    let ready = plan.ready_messages(state);
    match rng.below(100) {
        0..=3 => return RecordValue::Time(time),
        4..=7 => return FOREIGN.at(time),
        8..=12 if state.fired == 0 => {
            // A message of the chart that nothing awaits: the round is dropped.
            let last = usize::from(chart.count) - 1;
            let unready = (0..=last).rev().find(|&place| {
                (ready >> place) & 1 == 0 && chart.regions[place].message().is_some()
            });
            if let (Some(place), true) = (unready, chart.prechart > 0) {
                return message(&chart.regions[place], time);
            }
        }
        _ => {}
    }
    let places: Vec<usize> = (0..MAX_REGIONS)
        .filter(|place| (ready >> place) & 1 == 1)
        .collect();
    message(&chart.regions[rng.pick(&places)], time)
}

/// A message of no region.
const FOREIGN: Message = Message {
    source: 1,
    destination: 1,
    label: 0xFFFF,
};

/// The region's message at a time; a foreign one for a plain region.
fn message(region: &RegionValue, time: u32) -> RecordValue {
    region.message().unwrap_or(FOREIGN).at(time)
}

#[cfg(test)]
mod tests {
    use super::*;
    use crate::fast::judge;

    #[test]
    fn small_charts_are_read() {
        for chart in SMALL {
            assert!(read_chart(chart).is_ok(), "{chart:02X?}");
        }
    }

    #[test]
    fn the_large_chart_is_full_and_its_logs_keep_rounds() {
        let chart = read_chart(&large()).unwrap();
        assert_eq!((chart.count, chart.prechart), (32, 8));
        assert!(chart.regions.iter().all(|region| region.term_count == 4));
        let log = keeping_log(&chart, 10_000, 1);
        for (from, breaks_at) in [(0, 7..40), (5_000, 5_001..5_040)] {
            let verdict = judge(&chart, &breaking_log(&chart, &log, from)).unwrap();
            let (record, ..) = Break::numbers(verdict.broken);
            assert!(breaks_at.contains(&record), "{verdict:?}");
        }
        let verdict = judge(&chart, &log).unwrap();
        assert_eq!(judge(&chart, &raw_log(&log, u32::MAX - 99)), Ok(verdict));
        assert!(verdict.kept > 350, "{verdict:?}");
        assert!((1..60).contains(&verdict.dropped), "{verdict:?}");
        let chart = read_chart(&CHART_U).unwrap();
        let verdict = judge(&chart, &keeping_log(&chart, 10_000, 1)).unwrap();
        assert!(verdict.kept > 2_500, "{verdict:?}");
        assert!((1..600).contains(&verdict.dropped), "{verdict:?}");
    }
}
