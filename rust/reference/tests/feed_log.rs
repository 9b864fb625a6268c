//! A live monitor fed from the bytes of a log: what is taken, why it stops and which bytes change,
//! worked out by hand.

#[allow(dead_code)]
#[path = "common/logs.rs"]
mod logs;

use logs::{foreign, log, plain, raw, raw_log, time, HALF, LAST, LONGEST};
use lsc_reference::examples::{headings, message, references, undo, CHART_U};
use lsc_reference::feed_log::{feed_log, LogKind};
use lsc_reference::live::{held, live_bytes};
use lsc_reference::log::write_log;
use lsc_reference::monitor::feed;
use lsc_reference::reader::read_chart;
use lsc_reference::record::Stamp;
use lsc_reference::value::*;

/// The bytes of a kind.
type Kind = [u8; 5];

const START: Kind = [0; 5];
const PLAIN: Kind = [1, 0, 0, 0, 0];

/// A raw log's kind with its last stamp.
fn stamped(stamp: u32) -> Kind {
    LogKind::Raw(Stamp(stamp)).to_bytes()
}

/// What is said of no record.
const NONE: [u64; 9] = [0; 9];

/// Chart U's monitor after these records.
fn after(records: &[RecordValue]) -> MonitorValue {
    let chart = read_chart(&CHART_U).unwrap();
    let mut monitor = MonitorValue::ZERO;
    for record in records {
        let (answer, next) = feed(&chart, monitor, *record);
        assert!(!matches!(answer, Answer::Refused(_)), "{record:?}");
        monitor = next;
    }
    monitor
}

/// What feeding the bytes to chart U's monitor came to: the number, what is said, the monitor after
/// it and the kind. The bytes after the chart, the places after the ninth and the bytes after the
/// kind stay.
fn said(monitor: MonitorValue, kind: Kind, log: &[u8]) -> (u8, [u64; 9], MonitorValue, Kind) {
    let mut live = [&live_bytes(&CHART_U, &monitor)[..], &[9, 8]].concat();
    let mut bytes = [&kind[..], &[7, 6, 5]].concat();
    let mut out = [77; 11];
    let number = feed_log(&mut live, &mut bytes, log, &mut out);
    let (chart, _, monitor) = held(&live).unwrap();
    assert_eq!(chart, CHART_U);
    assert_eq!((&live[105..], &bytes[5..]), (&[9, 8][..], &[7, 6, 5][..]));
    assert_eq!(out[9..], [77, 77]);
    let numbers = out[..9].try_into().unwrap();
    (number, numbers, monitor, bytes[..5].try_into().unwrap())
}

/// It stops with the number before any record, and nothing changes.
fn stops(monitor: MonitorValue, kind: Kind, log: &[u8], number: u8) {
    assert_eq!(said(monitor, kind, log), (number, NONE, monitor, kind));
}

/// The log's bytes, then others.
fn with(records: &[RecordValue], behind: &[u8]) -> Vec<u8> {
    [&write_log(records)[..], behind].concat()
}

#[test]
fn no_bytes() {
    let owed = after(&[undo(100)]);
    for monitor in [MonitorValue::ZERO, owed] {
        for kind in [START, PLAIN, stamped(9), [0, 1, 2, 3, 4], [1, 1, 2, 3, 4]] {
            stops(monitor, kind, &[], 0);
        }
    }
}

#[test]
fn one_record_of_each_answer() {
    // Each of the nine numbers: one taken, 9 bytes or 5, the answer, and its count.
    let kept = [undo(100), headings(120), references(140)];
    let broken = [undo(100), undo(110)];
    let dropped = [headings(5)];
    let quiet = [time(5)];
    for (records, expected) in [
        (&broken[..], [1, 9, 1, 1, 0, 0, 0, 0, 0]),
        (&kept, [1, 9, 2, 0, 1, 0, 0, 0, 0]),
        (&dropped, [1, 9, 3, 0, 0, 1, 0, 0, 0]),
        (&kept[..1], [1, 9, 4, 0, 0, 0, 1, 0, 0]),
        (&kept[..2], [1, 9, 5, 0, 0, 0, 0, 1, 0]),
        (&quiet, [1, 5, 6, 0, 0, 0, 0, 0, 1]),
    ] {
        let (last, before) = records.split_last().unwrap();
        let stop = if expected[2] == 1 { 1 } else { 0 };
        for kind in [START, PLAIN, [0, 1, 2, 3, 4], [1, 1, 2, 3, 4]] {
            let fed = said(after(before), kind, &last.to_bytes());
            assert_eq!(fed, (stop, expected, after(records), PLAIN));
        }
    }
}

#[test]
fn several_records() {
    // Dropped, entered, time, moved, a foreign message, kept; then entered, moved and broken.
    let round = [
        headings(1),
        undo(2),
        time(3),
        headings(4),
        foreign(5),
        references(42),
    ];
    let fed = said(MonitorValue::ZERO, START, &write_log(&round));
    let numbers = [6, 50, 2, 0, 1, 1, 1, 1, 2];
    assert_eq!(fed, (0, numbers, after(&round), PLAIN));
    let late = [undo(50), references(60), headings(91), time(92)];
    let all = [&round[..], &late].concat();
    let fed = said(MonitorValue::ZERO, START, &write_log(&all));
    let numbers = [9, 77, 1, 1, 1, 1, 2, 2, 2];
    assert_eq!(fed, (1, numbers, after(&all[..9]), PLAIN));
}

#[test]
fn a_record_cut_short() {
    let whole = write_log(&[undo(100), references(120), time(130)]);
    for length in 0..=whole.len() {
        let records: &[RecordValue] = match length {
            0..=8 => &[],
            9..=17 => &[undo(100)],
            18..=22 => &[undo(100), references(120)],
            _ => &[undo(100), references(120), time(130)],
        };
        let (number, numbers, monitor, _) = said(MonitorValue::ZERO, START, &whole[..length]);
        let place = write_log(records).len();
        assert_eq!(number, if place == length { 0 } else { 30 });
        assert_eq!(numbers[..2], [records.len() as u64, place as u64]);
        assert_eq!(monitor, after(records));
    }
    // One byte of each kind of record, whatever the kind before it.
    for byte in 1..=4 {
        for kind in [START, PLAIN, stamped(9)] {
            stops(MonitorValue::ZERO, kind, &[byte], 30);
            stops(MonitorValue::ZERO, kind, &[byte, 0, 0, 0], 30);
        }
    }
    // Eight bytes of a message, four of time alone.
    stops(MonitorValue::ZERO, START, &[3, 0, 1, 0, 1, 0, 0, 0], 30);
    stops(MonitorValue::ZERO, START, &[4, 0, 0, 0], 30);
}

#[test]
fn an_unknown_byte() {
    for byte in [0, 5, 6, 0x81, 255] {
        stops(MonitorValue::ZERO, START, &[byte], 31);
        stops(after(&[undo(9)]), PLAIN, &[byte; 9], 31);
        let fed = said(MonitorValue::ZERO, START, &with(&[undo(9)], &[byte]));
        let numbers = [1, 9, 4, 0, 0, 0, 1, 0, 0];
        assert_eq!(fed, (31, numbers, after(&[undo(9)]), PLAIN));
    }
}

#[test]
fn a_time_that_falls() {
    let owed = after(&[undo(100)]);
    for kind in [START, PLAIN] {
        stops(owed, kind, &write_log(&[headings(99)]), 22);
        stops(owed, kind, &write_log(&[time(0), headings(100)]), 22);
        let fed = said(
            owed,
            kind,
            &write_log(&[headings(100), time(99), time(101)]),
        );
        let numbers = [1, 9, 5, 0, 0, 0, 0, 1, 0];
        let moved = after(&[undo(100), headings(100)]);
        assert_eq!(fed, (22, numbers, moved, PLAIN));
    }
}

#[test]
fn a_stamp_that_falls() {
    let owed = after(&[undo(100)]);
    // Back by one, half round, and one short of half round, which is taken 2^31 - 1 ticks later.
    stops(owed, stamped(50), &raw_log(&[headings(49)]), 22);
    stops(owed, stamped(50), &raw_log(&[headings(50 + HALF)]), 22);
    stops(owed, stamped(50), &raw_log(&[headings(51 + HALF)]), 22);
    let fed = said(owed, stamped(50), &raw_log(&[time(50 + LONGEST)]));
    let later = after(&[undo(100), time(100 + LONGEST)]);
    let numbers = [1, 5, 6, 0, 0, 0, 0, 0, 1];
    assert_eq!(fed, (0, numbers, later, stamped(50 + LONGEST)));
    // Behind one that is taken.
    let fed = said(owed, stamped(50), &raw_log(&[time(60), time(59)]));
    let later = after(&[undo(100), time(110)]);
    assert_eq!(fed, (22, numbers, later, stamped(60)));
}

#[test]
fn a_moment_that_is_too_late() {
    let last = after(&[undo(LAST - 10)]);
    // Ten ticks are left.
    let fed = said(last, stamped(7), &raw_log(&[time(17)]));
    let numbers = [1, 5, 6, 0, 0, 0, 0, 0, 1];
    let end = after(&[undo(LAST - 10), time(LAST)]);
    assert_eq!(fed, (0, numbers, end, stamped(17)));
    stops(last, stamped(7), &raw_log(&[time(18)]), 24);
    stops(last, stamped(7), &raw_log(&[undo(7 + LONGEST)]), 24);
    // A gap of half round is 22, though the moment would be too late as well.
    stops(last, stamped(7), &raw_log(&[undo(7 + HALF)]), 22);
    let fed = said(last, stamped(7), &raw_log(&[time(17), time(18)]));
    assert_eq!(fed, (24, numbers, end, stamped(17)));
}

#[test]
fn the_millionth_record_and_the_next() {
    let with_records = |records| MonitorValue {
        records,
        ..after(&[time(100)])
    };
    let full = with_records(1_000_000);
    for kind in [START, PLAIN] {
        stops(full, kind, &write_log(&[undo(100)]), 23);
        // The time is looked at before the count.
        stops(full, kind, &write_log(&[undo(99)]), 22);
        stops(full, kind, &[], 0);
    }
    stops(full, stamped(9), &raw_log(&[undo(9)]), 23);
    stops(full, stamped(9), &raw_log(&[undo(8)]), 22);
    let late = MonitorValue { now: LAST, ..full };
    stops(late, stamped(9), &raw_log(&[undo(10)]), 24);
    let log = write_log(&[time(100), time(100), time(100)]);
    let fed = said(with_records(999_998), PLAIN, &log);
    assert_eq!(fed, (23, [2, 10, 6, 0, 0, 0, 0, 0, 2], full, PLAIN));
}

#[test]
fn the_other_kind_of_record() {
    let owed = after(&[undo(100)]);
    stops(owed, PLAIN, &raw_log(&[headings(120)]), 32);
    stops(owed, stamped(9), &write_log(&[headings(120)]), 32);
    // Before its time or stamp is looked at; a cut one is 30.
    stops(owed, stamped(9), &write_log(&[headings(99)]), 32);
    stops(owed, PLAIN, &raw_log(&[headings(120)])[..8], 30);
    for (records, kind) in [
        ([plain(undo(0)), raw(time(0))], PLAIN),
        ([raw(undo(0)), plain(time(0))], stamped(0)),
    ] {
        let fed = said(MonitorValue::ZERO, START, &log(&records));
        let numbers = [1, 9, 4, 0, 0, 0, 1, 0, 0];
        assert_eq!(fed, (32, numbers, after(&[undo(0)]), kind));
    }
}

#[test]
fn a_monitor_that_is_broken_already() {
    let broken = after(&[undo(100), undo(110)]);
    let faults = [&[][..], &[1], &[5], &[2, 0, 0, 0, 200], &[4, 0, 0, 0, 0]];
    for kind in [START, PLAIN, stamped(9), [0, 1, 2, 3, 4]] {
        for log in faults {
            stops(broken, kind, log, 1);
        }
    }
    let full = MonitorValue {
        records: 1_000_000,
        ..broken
    };
    stops(full, PLAIN, &write_log(&[time(200)]), 1);
}

#[test]
fn nothing_behind_a_break_is_read() {
    let records = [headings(9), undo(9), undo(9)];
    let broken = after(&records);
    let numbers = [3, 27, 1, 1, 0, 1, 1, 0, 0];
    let expected = (1, numbers, broken, PLAIN);
    let behind = [
        &[][..],
        &[7],
        &[1, 0],
        &[2, 0, 0, 0, 8],
        &[2, 0, 0, 0, 9],
        &[4, 0, 0, 0, 9],
    ];
    for behind in behind {
        let fed = said(MonitorValue::ZERO, START, &with(&records, behind));
        assert_eq!(fed, expected);
    }
    // By a condition: the cause is in the image.
    let late = [undo(100), headings(141)];
    let (number, numbers, monitor, _) = said(MonitorValue::ZERO, START, &with(&late, &[7]));
    assert_eq!((number, numbers), (1, [2, 18, 1, 1, 0, 0, 1, 0, 0]));
    assert_eq!(monitor.cause, Cause { region: 2, term: 1 });
}

#[test]
fn the_first_raw_record() {
    // At moment 0, whatever its stamp and the bytes of a stamp before it.
    for kind in [START, [0, 1, 2, 3, 4]] {
        for stamp in [0, 1, 100, HALF, LAST] {
            let fed = said(MonitorValue::ZERO, kind, &raw_log(&[undo(stamp)]));
            let numbers = [1, 9, 4, 0, 0, 0, 1, 0, 0];
            let expected = (0, numbers, after(&[undo(0)]), stamped(stamp));
            assert_eq!(fed, expected);
        }
    }
    // So a monitor that is beyond moment 0 takes none.
    for now in [1, 100, LAST] {
        stops(after(&[time(now)]), START, &raw_log(&[undo(now)]), 22);
        stops(after(&[time(now)]), START, &raw_log(&[undo(0)]), 22);
    }
    // One at moment 0 does, also after records.
    let fed = said(after(&[undo(0)]), START, &raw_log(&[references(LAST)]));
    let numbers = [1, 9, 5, 0, 0, 0, 0, 1, 0];
    let moved = after(&[undo(0), references(0)]);
    assert_eq!(fed, (0, numbers, moved, stamped(LAST)));
}

#[test]
fn a_raw_log_over_calls_and_round_the_wrap() {
    // Stamps 16 before the wrap, 4 and 24 behind it: moments 0, 20 and 40.
    let records = [undo(LAST - 15), references(4), headings(24)];
    let times = [undo(0), references(20), headings(40)];
    let (mut monitor, mut kind) = (MonitorValue::ZERO, START);
    for (place, record) in records.iter().enumerate() {
        let (number, numbers, next, stamp) = said(monitor, kind, &raw_log(&[*record]));
        assert_eq!((number, numbers[..2].to_vec()), (0, vec![1, 9]));
        assert_eq!(stamp, stamped(record.time()));
        assert_eq!(next, after(&times[..=place]));
        (monitor, kind) = (next, stamp);
    }
    let fed = said(MonitorValue::ZERO, START, &raw_log(&records));
    let numbers = [3, 27, 2, 0, 1, 0, 1, 1, 0];
    assert_eq!(fed, (0, numbers, monitor, kind));
    // A tick later it is broken; in one call and from the second record on.
    let late = [records[0], records[1], headings(25)];
    let broken = after(&[times[0], times[1], headings(41)]);
    let fed = said(MonitorValue::ZERO, START, &raw_log(&late));
    let numbers = [3, 27, 1, 1, 0, 0, 1, 1, 0];
    assert_eq!(fed, (1, numbers, broken, stamped(25)));
    let second = said(after(&times[..1]), stamped(LAST - 15), &raw_log(&late[1..]));
    let numbers = [2, 18, 1, 1, 0, 0, 0, 1, 0];
    assert_eq!(second, (1, numbers, broken, stamped(25)));
    // The moment before is the monitor's own: it may be another than the log's.
    let fed = said(
        after(&[undo(1_000)]),
        stamped(LAST),
        &raw_log(&[headings(39)]),
    );
    let numbers = [1, 9, 5, 0, 0, 0, 0, 1, 0];
    let moved = after(&[undo(1_000), headings(1_040)]);
    assert_eq!(fed, (0, numbers, moved, stamped(39)));
}

#[test]
fn a_log_in_pieces() {
    let records = [headings(1), undo(2), time(3), headings(4), references(42)];
    for whole in [write_log(&records), raw_log(&records)] {
        let wanted = said(MonitorValue::ZERO, START, &whole);
        for size in 1..=whole.len() {
            let (mut monitor, mut kind) = (MonitorValue::ZERO, START);
            let (mut waiting, mut sums) = (Vec::new(), [0; 9]);
            let mut last = 0;
            for piece in whole.chunks(size) {
                waiting.extend(piece);
                let (number, numbers, next, stamp) = said(monitor, kind, &waiting);
                (monitor, kind) = (next, stamp);
                waiting.drain(..numbers[1] as usize);
                assert_eq!(number, if waiting.is_empty() { 0 } else { 30 });
                for (sum, more) in sums.iter_mut().zip(numbers) {
                    *sum += more;
                }
                last = if numbers[0] > 0 { numbers[2] } else { last };
            }
            sums[2] = last;
            assert_eq!((0, sums, monitor, kind), wanted, "pieces of {size}");
        }
    }
}

/// Feeding in buffers of these lengths, all of which stay; the number.
fn refused(live: &[u8], kind: &[u8], places: usize) -> u8 {
    let (mut bytes, mut held, mut out) = (live.to_vec(), kind.to_vec(), vec![77; places]);
    let record = undo(9).to_bytes();
    let number = feed_log(&mut bytes, &mut held, &record, &mut out);
    assert_eq!((&bytes[..], &held[..]), (live, kind));
    assert_eq!(out, vec![77; places]);
    number
}

#[test]
fn short_buffers() {
    let live = live_bytes(&CHART_U, &MonitorValue::ZERO);
    let mut unfit = live.clone();
    unfit[0] = 1;
    for live in [&live[..], &unfit, &live[..104], &[]] {
        for length in 0..5 {
            assert_eq!(refused(live, &vec![3; length], 9), 12);
        }
        for places in 0..9 {
            assert_eq!(refused(live, &START, places), 12);
        }
    }
}

#[test]
fn bytes_that_hold_no_live_monitor() {
    let live = live_bytes(&CHART_U, &MonitorValue::ZERO);
    let mut other = live.clone();
    // The chart's length, one more and the largest; its last byte.
    other[66] += 1;
    assert_eq!(refused(&other, &START, 9), 20);
    other[59..67].fill(255);
    assert_eq!(refused(&other, &START, 9), 20);
    other = live.clone();
    other[104] = 0;
    assert_eq!(refused(&other, &START, 9), 20);
    for length in [0, 58, 59, 66, 67, 104] {
        assert_eq!(refused(&live[..length], &START, 9), 20);
        assert_eq!(refused(&live[..length], &[3, 0, 0, 0, 0], 9), 20);
    }
}

#[test]
fn unfit_monitors_and_kinds() {
    let unfit = |monitor: MonitorValue| {
        for kind in [START, PLAIN, stamped(9), [3; 5]] {
            assert_eq!(refused(&live_bytes(&CHART_U, &monitor), &kind, 9), 21);
        }
    };
    let zero = MonitorValue::ZERO;
    unfit(MonitorValue { fired: 2, ..zero });
    unfit(MonitorValue { fired: 7, ..zero });
    let records = 1_000_001;
    unfit(MonitorValue { records, ..zero });
    unfit(MonitorValue { reason: 1, ..zero });
    for monitor in [zero, after(&[undo(9)]), after(&[undo(9), undo(9)])] {
        let live = live_bytes(&CHART_U, &monitor);
        for number in [3, 4, 128, 255] {
            assert_eq!(refused(&live, &[number, 0, 0, 0, 0], 9), 21);
            assert_eq!(refused(&live, &[number, 1, 2, 3, 4, 5], 11), 21);
        }
    }
}

#[test]
fn a_second_offer() {
    // A, then b, then c in the main chart: the second a drops the round and moves.
    let chart = [
        0x10, 2, 0, 0x20, 0, 1, 0, 1, 0x20, 0, 1, 0, 2, 0x50, 0x20, 1, 0, 0, 3, 0x7F,
    ];
    let [a, b, c] = [
        message(0, 1, 1, 7),
        message(0, 1, 2, 7),
        message(1, 0, 3, 7),
    ];
    let mut live = live_bytes(&chart, &MonitorValue::ZERO);
    let (mut kind, mut out) = (START, [0; 9]);
    let log = write_log(&[a, a, b, c]);
    assert_eq!(feed_log(&mut live, &mut kind, &log, &mut out), 0);
    assert_eq!(out, [4, 36, 2, 0, 1, 0, 1, 2, 0]);
    let (.., monitor) = held(&live).unwrap();
    assert_eq!((monitor.kept, monitor.dropped, monitor.records), (1, 1, 4));
}

#[test]
fn kinds_as_bytes() {
    for (kind, bytes) in [
        (LogKind::NoRecord, [0; 5]),
        (LogKind::Plain, [1, 0, 0, 0, 0]),
        (LogKind::Raw(Stamp(0x0102_03FF)), [2, 1, 2, 3, 255]),
    ] {
        assert_eq!(kind.to_bytes(), bytes);
        assert_eq!(LogKind::from_bytes(bytes), Some(kind));
    }
    assert_eq!(
        LogKind::from_bytes([0, 9, 9, 9, 9]),
        Some(LogKind::NoRecord)
    );
    assert_eq!(LogKind::from_bytes([1, 9, 9, 9, 9]), Some(LogKind::Plain));
    assert_eq!(LogKind::from_bytes([3, 0, 0, 0, 0]), None);
}
