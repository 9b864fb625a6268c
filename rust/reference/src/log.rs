//! Reading one record, judging a whole log, and asking only whether it breaks the chart.

use crate::monitor::{feed_fit, has, in_prechart, Order};
use crate::record::LogRecord;
use crate::value::*;
use crate::well_formed::is_given;

/// From this difference to the stamp before on, a raw record is refused with 22: its time falls.
const HALF_RANGE: u64 = 1 << 31;

/// What reading one record says (E2 to E4). With a record comes the offset just after it; in
/// the other cases the offset stays.
#[derive(Clone, Copy, Debug, PartialEq, Eq)]
pub enum Next {
    End,
    Refused(u8),
    Taken(LogRecord, usize),
}

/// A verdict (J6).
#[derive(Clone, Copy, Debug, PartialEq, Eq)]
pub struct Verdict {
    pub standing: u8,
    pub kept: u32,
    pub dropped: u32,
    pub records: u32,
    pub broken: Option<Break>,
}

impl Verdict {
    /// The verdict that comes with a refusal (J5).
    pub const ZERO: Verdict = Verdict {
        standing: 0,
        kept: 0,
        dropped: 0,
        records: 0,
        broken: None,
    };

    /// The verdict's fields as numbers.
    pub fn numbers(&self) -> [u32; 8] {
        let (record, reason, cause) = Break::numbers(self.broken);
        let standing = self.standing.into();
        [
            standing,
            self.kept,
            self.dropped,
            self.records,
            record,
            reason.into(),
            cause.region.into(),
            cause.term.into(),
        ]
    }
}

/// What the log reader says at an offset (E2 to E4).
pub fn read_record(bytes: &[u8], offset: usize) -> Next {
    if offset >= bytes.len() {
        return Next::End;
    }
    let rest = &bytes[offset..];
    let length = match rest[0] {
        1 | 3 => 9,
        2 | 4 => 5,
        _ => return Next::Refused(31),
    };
    if rest.len() < length {
        return Next::Refused(30);
    }
    match LogRecord::from_bytes(&rest[..length]) {
        Some(record) => Next::Taken(record, offset + length),
        None => Next::Refused(31),
    }
}

/// The log's records at their moments, or its first fault (J2, J3).
pub fn read_log(bytes: &[u8]) -> Result<Vec<RecordValue>, (u8, usize)> {
    Records::of(bytes).collect()
}

/// The records of a log from the left, each checked and at its moment. It does not move on from a
/// fault.
struct Records<'a> {
    bytes: &'a [u8],
    offset: usize,
    /// How many were handed out.
    count: u32,
    /// The last of them, and its moment.
    before: Option<(LogRecord, u32)>,
}

impl Records<'_> {
    fn of(bytes: &[u8]) -> Records<'_> {
        Records {
            bytes,
            offset: 0,
            count: 0,
            before: None,
        }
    }

    /// The record at the offset, none at the end; or its refusal (J3).
    fn checked(&mut self) -> Result<Option<RecordValue>, u8> {
        let (record, after) = match read_record(self.bytes, self.offset) {
            Next::End => return Ok(None),
            Next::Refused(code) => return Err(code),
            Next::Taken(record, after) => (record, after),
        };
        let timed = timed(self.before, &record)?;
        if self.count == MAX_RECORDS {
            return Err(23);
        }
        self.offset = after;
        self.count += 1;
        self.before = Some((record, timed.time()));
        Ok(Some(timed))
    }
}

impl Iterator for Records<'_> {
    type Item = Result<RecordValue, (u8, usize)>;

    fn next(&mut self) -> Option<Self::Item> {
        let checked = self.checked().map_err(|code| (code, self.offset));
        checked.transpose()
    }
}

/// A record at its moment, after the one before it and that one's moment; or refusal 32, 22 or 24,
/// in this order. A plain record is at its time. The first raw record is at moment 0, each later
/// one so many ticks behind the record before as their stamps differ, taken round the wrap.
pub(crate) fn timed(
    before: Option<(LogRecord, u32)>,
    record: &LogRecord,
) -> Result<RecordValue, u8> {
    match (before, record) {
        (None, LogRecord::Plain(record)) => Ok(*record),
        (None, LogRecord::Raw(record)) => Ok(record.at(0)),
        (Some((LogRecord::Plain(_), last)), LogRecord::Plain(record)) => {
            if record.time() < last {
                return Err(22);
            }
            Ok(*record)
        }
        (Some((LogRecord::Raw(last), moment)), LogRecord::Raw(record)) => {
            let gap = record.stamp.since(last.stamp);
            if gap >= HALF_RANGE {
                return Err(22);
            }
            match u32::try_from(u64::from(moment) + gap) {
                Ok(moment) => Ok(record.at(moment)),
                Err(_) => Err(24),
            }
        }
        _ => Err(32),
    }
}

/// The records as a plain log's bytes.
pub fn write_log(records: &[RecordValue]) -> Vec<u8> {
    records.iter().flat_map(RecordValue::to_bytes).collect()
}

/// How a fit monitor stands (J8, J9, J13).
fn standing(chart: &ChartValue, monitor: &MonitorValue) -> u8 {
    if monitor.broken().is_some() {
        3
    } else if monitor.fired == 0 {
        0
    } else if in_prechart(chart, monitor.fired) {
        1
    } else if rests(chart, monitor.fired) {
        4
    } else {
        2
    }
}

/// Whether every line that counts is cold (J13), with these regions fired. A line counts if some
/// main region that touches it is not fired. Of those that are fired on it the one with the highest
/// number gives its temperature: cold if it is marked (C20). Without one the line is hot.
fn rests(chart: &ChartValue, fired: u32) -> bool {
    let main = usize::from(chart.prechart)..usize::from(chart.count);
    (0..chart.lines).all(|line| {
        let touches = |region: &usize| chart.regions[*region].event.touches(line);
        let counts = main
            .clone()
            .filter(touches)
            .any(|region| !has(fired, region));
        let last = main
            .clone()
            .filter(touches)
            .rfind(|&region| has(fired, region));
        !counts || last.is_some_and(|region| chart.regions[region].rest)
    })
}

/// The verdict that a fit monitor stands for.
pub fn verdict(chart: &ChartValue, monitor: &MonitorValue) -> Verdict {
    Verdict {
        standing: standing(chart, monitor),
        kept: monitor.kept,
        dropped: monitor.dropped,
        records: monitor.records,
        broken: monitor.broken(),
    }
}

/// The verdict on a log, or the refusal and its offset (J1 to J6). The whole log is checked
/// before feeding begins (J4).
pub fn judge(chart: &ChartValue, bytes: &[u8]) -> Result<Verdict, (u8, usize)> {
    if !is_given(chart) {
        return Err((20, 0));
    }
    let records = read_log(bytes)?;
    let order = Order::of(chart);
    let mut monitor = MonitorValue::ZERO;
    for record in records {
        monitor = feed_fit(chart, &order, monitor, record).1;
    }
    Ok(verdict(chart, &monitor))
}

/// Whether the log breaks the chart, or the refusal and its offset (K1 to K4). Record by record,
/// each is checked and then fed; the first break ends it, so that a fault after it is not seen.
pub fn breaks(chart: &ChartValue, bytes: &[u8]) -> Result<bool, (u8, usize)> {
    if !is_given(chart) {
        return Err((20, 0));
    }
    let order = Order::of(chart);
    let mut monitor = MonitorValue::ZERO;
    for record in Records::of(bytes) {
        monitor = feed_fit(chart, &order, monitor, record?).1;
        if monitor.broken().is_some() {
            return Ok(true);
        }
    }
    Ok(false)
}
