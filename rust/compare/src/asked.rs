//! Names for what the question whether a log breaks its chart came to.

use crate::outcomes::Times;
use lsc_reference::log::{breaks, read_log, read_record, write_log, Next, Verdict};
use lsc_reference::record::LogRecord;
use lsc_reference::value::*;
use std::fmt;

/// A refusal's number and its offset.
type Fault = (u8, usize);

/// What asking came to.
#[derive(Clone, Copy, Debug, PartialEq, Eq, PartialOrd, Ord)]
pub enum Asked {
    /// Refused with 12: too few places.
    Short,
    /// The chart's bytes are refused.
    Chart(u8),
    /// Refused with 20: the value is no chart.
    NoChart,
    /// The log is empty: no.
    Empty,
    No(Times),
    Yes(Times),
    Refused(Times, u8),
    /// Yes, where judging refuses the log.
    FaultAfterBreak(Times, u8),
    /// Refused, where the log without the record at fault would break the chart.
    BreakAfterFault(Times, u8),
    /// Refused, where the record at fault would break the chart at the moment of the one before.
    BreakAtFault(Times, u8),
}

use Asked::*;
use Times::*;

/// What logs must come to. Behind a record that is cut short there is none, and only a whole record
/// could break a chart.
pub const ASKED: [Asked; 35] = [
    Empty,
    No(Plain),
    No(Raw),
    Yes(Plain),
    Yes(Raw),
    Refused(Plain, 22),
    Refused(Plain, 30),
    Refused(Plain, 31),
    Refused(Plain, 32),
    Refused(Raw, 22),
    Refused(Raw, 24),
    Refused(Raw, 30),
    Refused(Raw, 31),
    Refused(Raw, 32),
    FaultAfterBreak(Plain, 22),
    FaultAfterBreak(Plain, 30),
    FaultAfterBreak(Plain, 31),
    FaultAfterBreak(Plain, 32),
    FaultAfterBreak(Raw, 22),
    FaultAfterBreak(Raw, 24),
    FaultAfterBreak(Raw, 30),
    FaultAfterBreak(Raw, 31),
    FaultAfterBreak(Raw, 32),
    BreakAfterFault(Plain, 22),
    BreakAfterFault(Plain, 31),
    BreakAfterFault(Plain, 32),
    BreakAfterFault(Raw, 22),
    BreakAfterFault(Raw, 24),
    BreakAfterFault(Raw, 31),
    BreakAfterFault(Raw, 32),
    BreakAtFault(Plain, 22),
    BreakAtFault(Plain, 32),
    BreakAtFault(Raw, 22),
    BreakAtFault(Raw, 24),
    BreakAtFault(Raw, 32),
];

/// And beside a chart's bytes, in places of the caller; the last four by fixed inputs.
pub const ASKED_BYTES: [Asked; 17] = [
    Short,
    Chart(1),
    Chart(2),
    Chart(3),
    Chart(4),
    Chart(5),
    Chart(6),
    Chart(7),
    Chart(8),
    Chart(9),
    Chart(10),
    Chart(11),
    Chart(13),
    Refused(Plain, 23),
    Refused(Raw, 23),
    FaultAfterBreak(Plain, 23),
    FaultAfterBreak(Raw, 23),
];

/// And beside a chart value.
pub const ASKED_VALUES: [Asked; 1] = [NoChart];

/// What a log over a chart came to, by the answer to it and its judging.
pub fn names(
    chart: &ChartValue,
    log: &[u8],
    answer: &Result<bool, Fault>,
    judged: &Result<Verdict, Fault>,
) -> Vec<Asked> {
    let Some(times) = Times::of(log) else {
        return log.is_empty().then_some(Empty).into_iter().collect();
    };
    match (*answer, judged) {
        (Ok(false), _) => vec![No(times)],
        (Ok(true), Ok(_)) => vec![Yes(times)],
        (Ok(true), Err((number, _))) => vec![FaultAfterBreak(times, *number)],
        (Err((number, offset)), _) => {
            let mut found = vec![Refused(times, number)];
            let would = |log: Vec<u8>| breaks(chart, &log) == Ok(true);
            if would(without(log, offset)) {
                found.push(BreakAfterFault(times, number));
            }
            if at_the_moment_before(log, offset).is_some_and(would) {
                found.push(BreakAtFault(times, number));
            }
            found
        }
    }
}

/// The log without the record, or the byte that starts none, at an offset.
fn without(log: &[u8], offset: usize) -> Vec<u8> {
    let behind = match read_record(log, offset) {
        Next::Taken(_, behind) => behind,
        _ => offset + 1,
    };
    [&log[..offset], &log[behind..]].concat()
}

/// The records before an offset and, at the moment of the last of them, the message that stands
/// there: as a plain log, if there are such.
fn at_the_moment_before(log: &[u8], offset: usize) -> Option<Vec<u8>> {
    let message = match read_record(log, offset) {
        Next::Taken(LogRecord::Plain(record), _) => record.message()?,
        Next::Taken(LogRecord::Raw(record), _) => record.message?,
        _ => return None,
    };
    let mut records = read_log(&log[..offset]).ok()?;
    let now = records.last()?.time();
    records.push(message.at(now));
    Some(write_log(&records))
}

impl fmt::Display for Asked {
    fn fmt(&self, f: &mut fmt::Formatter<'_>) -> fmt::Result {
        match self {
            Short => write!(f, "refusal 12"),
            Chart(number) => write!(f, "chart, refusal {number}"),
            NoChart => write!(f, "refusal 20"),
            Empty => write!(f, "empty log, no"),
            No(times) => write!(f, "{times} log, no"),
            Yes(times) => write!(f, "{times} log, yes"),
            Refused(times, number) => write!(f, "{times} log, refusal {number}"),
            FaultAfterBreak(times, number) => {
                write!(f, "{times} log, yes before fault {number}")
            }
            BreakAfterFault(times, number) => {
                write!(f, "{times} log, refusal {number} before a break")
            }
            BreakAtFault(times, number) => {
                write!(
                    f,
                    "{times} log, refusal {number} of a message that would break"
                )
            }
        }
    }
}

#[cfg(test)]
mod tests {
    use super::*;
    use lsc_reference::examples::{headings, undo, CHART_U};
    use lsc_reference::log::judge;
    use lsc_reference::reader::read_chart;

    fn named(log: &[u8]) -> Vec<Asked> {
        let chart = read_chart(&CHART_U).unwrap();
        let answer = breaks(&chart, log);
        names(&chart, log, &answer, &judge(&chart, log))
    }

    #[test]
    fn answers_are_named() {
        assert_eq!(named(&[]), [Empty]);
        assert_eq!(named(&[7]), []);
        assert_eq!(named(&write_log(&[undo(5)])), [No(Plain)]);
        let mut log = write_log(&[undo(5), undo(5)]);
        assert_eq!(named(&log), [Yes(Plain)]);
        log.push(7);
        assert_eq!(named(&log), [FaultAfterBreak(Plain, 31)]);
    }

    #[test]
    fn breaks_after_a_fault_and_at_it_are_named() {
        let falls = |last: RecordValue| write_log(&[undo(5), last]);
        let refused = Refused(Plain, 22);
        assert_eq!(named(&falls(RecordValue::Time(4))), [refused]);
        assert_eq!(named(&falls(headings(4))), [refused]);
        let at_fault = [refused, BreakAtFault(Plain, 22)];
        assert_eq!(named(&falls(undo(4))), at_fault);
        let behind = write_log(&[undo(5), headings(4), undo(6)]);
        assert_eq!(named(&behind), [refused, BreakAfterFault(Plain, 22)]);
        let unknown = [undo(5).to_bytes(), vec![7], undo(6).to_bytes()].concat();
        let expected = [Refused(Plain, 31), BreakAfterFault(Plain, 31)];
        assert_eq!(named(&unknown), expected);
    }
}
