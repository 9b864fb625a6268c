//! One record at a place of a log: `lsc_read_record` and the safe `read_record` against the
//! reference's.

use super::filled_places;
use crate::difference::{same, Both};
use crate::random::{self, Rng};
use crate::seen::Seen;
use lsc::call::{self, RECORD_PLACES};
use lsc::RecordRefusal;
use lsc_reference::log::{read_record, Next};
use lsc_reference::record::{LogRecord, RawRecord, Stamp};
use lsc_reference::value::*;

/// The kind's name.
pub const NAME: &str = "read";

/// What reading must come to: each kind of record, each refusal, each way to be at the end.
pub const READS: [&str; 11] = [
    "kind 0",
    "kind 1",
    "kind 2",
    "kind 3",
    "kind 4",
    "refusal 12",
    "refusal 30",
    "refusal 31",
    "at the end",
    "beyond the end",
    "the largest place",
];

/// The most places that are lent.
const MOST_PLACES: usize = 8;

/// What the safe wrapper says of a place.
type Told = Result<Option<(lsc::LogRecord, usize)>, RecordRefusal>;

pub fn make(rng: &mut Rng) -> (Vec<u8>, Vec<u8>) {
    let log = if rng.chance(20) {
        let bytes = rng.below(24);
        (0..bytes).map(|_| rng.byte() % 7).collect()
    } else {
        let size = random::some_size(rng);
        let (_, chart) = random::chart(rng, size);
        random::hostile_log_bytes(rng, &chart)
    };
    let place = some_place(rng, &log);
    (log, place.to_be_bytes().to_vec())
}

/// A place in the log, mostly where a piece starts; at its end, beyond it, anywhere.
fn some_place(rng: &mut Rng, log: &[u8]) -> u64 {
    let length = log.len() as u64;
    let inside = rng.below(log.len() + 1);
    let mut starts = vec![0];
    for piece in random::log_pieces(log) {
        starts.push(starts[starts.len() - 1] + piece.len() as u64);
    }
    match rng.below(12) {
        0..=6 => rng.pick(&starts),
        7..=8 => inside as u64,
        9 => length + rng.below(12) as u64,
        // A place in the log if only the lower bits count.
        10 => rng.pick(&[1 << 8, 1 << 16, 1 << 31, 1 << 32, 1 << 63]) + inside as u64,
        _ => rng.pick(&[u64::MAX, u64::MAX, u64::MAX - 4, u64::MAX - 8, 1 << 63]),
    }
}

/// The place that the bytes are, most significant first.
fn place_of(bytes: &[u8]) -> usize {
    let place = bytes
        .iter()
        .fold(0u64, |place, &byte| (place << 8) | u64::from(byte));
    usize::try_from(place).unwrap_or(usize::MAX)
}

/// The six places that the reference gives, or its refusal.
fn expected(log: &[u8], place: usize) -> Result<[u64; RECORD_PLACES], u8> {
    let (kind, message, number, behind) = match read_record(log, place) {
        Next::Refused(number) => return Err(number),
        Next::End => (0, None, 0, place),
        Next::Taken(LogRecord::Plain(RecordValue::Time(time)), behind) => (2, None, time, behind),
        Next::Taken(LogRecord::Plain(RecordValue::Message { message, time }), behind) => {
            (1, Some(message), time, behind)
        }
        Next::Taken(LogRecord::Raw(record), behind) => {
            let kind = if record.message.is_some() { 3 } else { 4 };
            (kind, record.message, record.stamp.0, behind)
        }
    };
    let (source, destination, label) = match message {
        Some(message) => (message.source, message.destination, message.label),
        None => (0, 0, 0),
    };
    Ok([
        kind,
        source.into(),
        destination.into(),
        label.into(),
        number.into(),
        behind as u64,
    ])
}

/// The record that the safe wrapper gives for the reference's.
fn safe_record(record: LogRecord) -> lsc::LogRecord {
    match record {
        LogRecord::Plain(RecordValue::Time(time)) => lsc::LogRecord::Time { time },
        LogRecord::Plain(RecordValue::Message { message: m, time }) => lsc::LogRecord::Message {
            source: m.source,
            destination: m.destination,
            label: m.label,
            time,
        },
        LogRecord::Raw(RawRecord { message, stamp }) => {
            let Stamp(shown) = stamp;
            let stamp = lsc::Stamp(shown);
            match message {
                None => lsc::LogRecord::RawTime { stamp },
                Some(m) => lsc::LogRecord::RawMessage {
                    source: m.source,
                    destination: m.destination,
                    label: m.label,
                    stamp,
                },
            }
        }
    }
}

/// What the safe wrapper must say.
fn safe_expected(log: &[u8], place: usize) -> Told {
    match read_record(log, place) {
        Next::End => Ok(None),
        Next::Refused(30) => Err(RecordRefusal::CutShort),
        Next::Refused(_) => Err(RecordRefusal::UnknownByte),
        Next::Taken(record, behind) => Ok(Some((safe_record(record), behind))),
    }
}

pub fn compare(log: &[u8], place: &[u8], seen: &mut Seen) -> Result<(), Both> {
    let place = place_of(place);
    let read = expected(log, place);
    for places in 0..=MOST_PLACES {
        let mut wanted = filled_places(places);
        let number = match read {
            _ if places < RECORD_PLACES => 12,
            Err(number) => number,
            Ok(numbers) => {
                wanted[..RECORD_PLACES].copy_from_slice(&numbers);
                0
            }
        };
        let mut out = filled_places(places);
        let answer = call::read_record(log, place, &mut out);
        same("record and places", (answer, out), (number, wanted))?;
        if number != 0 {
            seen.coverage.refusal(number);
        }
    }
    let told = lsc::read_record(log, place);
    same("the safe record", told, safe_expected(log, place))?;
    seen.coverage.read("refusal 12");
    seen.coverage.read(match read {
        Err(30) => "refusal 30",
        Err(_) => "refusal 31",
        Ok([kind, ..]) => READS[kind as usize],
    });
    if place >= log.len() {
        seen.coverage.read(match place {
            usize::MAX => "the largest place",
            _ if place == log.len() => "at the end",
            _ => "beyond the end",
        });
    }
    Ok(())
}
