//! What several tests of rounds worked out by hand use.

use lsc_reference::declarative::Rows;
use lsc_reference::log::verdict;
use lsc_reference::monitor::feed;
use lsc_reference::value::*;

pub const AT_MOST: u8 = 1;
pub const EQUAL: u8 = 2;
pub const AT_LEAST: u8 = 3;

/// A term on one clock.
pub fn clock(clock: u8, relation: u8, n: i32) -> Vec<u8> {
    [&[0x30, clock, relation], &n.to_be_bytes()[..]].concat()
}

/// A term on the first clock less the second.
pub fn difference(first: u8, second: u8, relation: u8, n: i32) -> Vec<u8> {
    [&[0x31, first, second, relation], &n.to_be_bytes()[..]].concat()
}

pub fn cause(region: u8, term: u8) -> Cause {
    Cause { region, term }
}

pub fn broken(record: u32, reason: Reason, cause: Cause) -> Answer {
    Answer::Broken(Break {
        record,
        reason,
        cause,
    })
}

/// Feeds the records to a fresh monitor: the answers and the monitor after them, which the rows
/// give too, and the verdict.
pub fn fed(chart: &ChartValue, records: &[RecordValue]) -> (Vec<Answer>, MonitorValue) {
    let mut monitor = MonitorValue::ZERO;
    let mut answers = Vec::new();
    for record in records {
        let (answer, after) = feed(chart, monitor, *record);
        answers.push(answer);
        monitor = after;
    }
    let meaning = Rows::of(chart).meaning(records);
    assert_eq!((&meaning.answers, meaning.monitor()), (&answers, monitor));
    assert_eq!(meaning.verdict(), verdict(chart, &monitor));
    (answers, monitor)
}
