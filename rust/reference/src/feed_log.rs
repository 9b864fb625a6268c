//! Feeding a live monitor with the records that stand in some bytes of a log (V22).

use crate::live::{held, monitor_image, MONITOR_IMAGE};
use crate::log::{read_record, timed, Next};
use crate::monitor::{feed_fit, is_fit, Order};
use crate::record::{LogRecord, RawRecord, Stamp};
use crate::value::*;

/// Bytes that the kind of a log is kept in.
pub const KIND_SIZE: usize = 5;
/// Numbers that are said of the records taken.
pub const LOG_PLACES: usize = 9;

/// The kind of a log so far.
#[derive(Clone, Copy, Debug, PartialEq, Eq)]
pub enum LogKind {
    NoRecord,
    Plain,
    /// With the stamp of its last record.
    Raw(Stamp),
}

impl LogKind {
    /// The kind of five bytes; none if the first is above 2. A stamp counts for a raw log alone.
    pub fn from_bytes([kind, stamp @ ..]: [u8; KIND_SIZE]) -> Option<LogKind> {
        match kind {
            0 => Some(LogKind::NoRecord),
            1 => Some(LogKind::Plain),
            2 => Some(LogKind::Raw(Stamp(u32::from_be_bytes(stamp)))),
            _ => None,
        }
    }

    /// The five bytes, zeros where no stamp is.
    pub fn to_bytes(self) -> [u8; KIND_SIZE] {
        let (kind, Stamp(stamp)) = match self {
            LogKind::NoRecord => (0, Stamp(0)),
            LogKind::Plain => (1, Stamp(0)),
            LogKind::Raw(stamp) => (2, stamp),
        };
        let mut bytes = [kind; KIND_SIZE];
        bytes[1..].copy_from_slice(&stamp.to_be_bytes());
        bytes
    }

    /// The kind of a log whose last record is this one.
    pub fn after(record: &LogRecord) -> LogKind {
        match record {
            LogRecord::Plain(_) => LogKind::Plain,
            LogRecord::Raw(record) => LogKind::Raw(record.stamp),
        }
    }

    /// A record that leaves this kind, at a moment; none before the first.
    fn last_record(self, moment: u32) -> Option<(LogRecord, u32)> {
        let record = match self {
            LogKind::NoRecord => return None,
            LogKind::Plain => LogRecord::Plain(RecordValue::Time(moment)),
            LogKind::Raw(stamp) => LogRecord::Raw(RawRecord {
                message: None,
                stamp,
            }),
        };
        Some((record, moment))
    }
}

/// A fit monitor that is fed from some bytes of a log, and how far it is.
pub struct Feeding<'a> {
    chart: &'a ChartValue,
    order: Order,
    log: &'a [u8],
    pub monitor: MonitorValue,
    pub kind: LogKind,
    /// The offset just after the last record taken.
    pub place: usize,
}

impl Feeding<'_> {
    pub fn of<'a>(
        chart: &'a ChartValue,
        monitor: MonitorValue,
        kind: LogKind,
        log: &'a [u8],
    ) -> Feeding<'a> {
        Feeding {
            chart,
            order: Order::of(chart),
            log,
            monitor,
            kind,
            place: 0,
        }
    }

    /// Takes the next record, which comes at its moment and with its answer; or the number that it
    /// stops with, and nothing changes.
    pub fn take(&mut self) -> Result<(RecordValue, Answer), u8> {
        if self.monitor.broken().is_some() {
            return Err(1);
        }
        let (record, place) = match read_record(self.log, self.place) {
            Next::End => return Err(0),
            Next::Refused(number) => return Err(number),
            Next::Taken(record, place) => (record, place),
        };
        // The record before it is at the monitor's now.
        let timed = timed(self.kind.last_record(self.monitor.now), &record)?;
        let (answer, monitor) = feed_fit(self.chart, &self.order, self.monitor, timed);
        if let Answer::Refused(number) = answer {
            return Err(number);
        }
        self.monitor = monitor;
        self.kind = LogKind::after(&record);
        self.place = place;
        Ok((timed, answer))
    }
}

/// Feeds the records in the bytes to a live monitor, and answers why it stopped; or 12, 20, 21,
/// which leave every buffer as it was (V22).
pub fn feed_log(live: &mut [u8], kind: &mut [u8], log: &[u8], out: &mut [u64]) -> u8 {
    let Some((kind, _)) = kind.split_first_chunk_mut::<KIND_SIZE>() else {
        return 12;
    };
    let Some((out, _)) = out.split_first_chunk_mut::<LOG_PLACES>() else {
        return 12;
    };
    let Some((_, chart, monitor)) = held(live) else {
        return 20;
    };
    if !is_fit(&chart, &monitor) {
        return 21;
    }
    let Some(before) = LogKind::from_bytes(*kind) else {
        return 21;
    };
    let mut feeding = Feeding::of(&chart, monitor, before, log);
    let (mut taken, mut last, mut answered) = (0, 0, [0; 6]);
    let stop = loop {
        match feeding.take() {
            Ok((_, answer)) => {
                taken += 1;
                last = answer.number();
                answered[usize::from(last) - 1] += 1;
            }
            Err(number) => break number,
        }
    };
    out[..3].copy_from_slice(&[taken, feeding.place as u64, last.into()]);
    out[3..].copy_from_slice(&answered);
    if taken > 0 {
        live[..MONITOR_IMAGE].copy_from_slice(&monitor_image(&feeding.monitor));
        *kind = feeding.kind.to_bytes();
    }
    stop
}
