//! Feeding from the bytes of a log, by the library alone: every cut of some logs, every byte that
//! starts a kind or a record, stamps at the ends of the range, many records, what stays, and
//! records fed one by one with moments that are worked out here.

use lsc::{read_record, Answer, FeedRefusal, LiveMonitor, LogKind, LogRecord, Stamp, Stop};
use lsc_compare::charts;
use lsc_compare::random::{self, Rng};
use lsc_reference::examples::{headings, references, undo, CHART_U};
use lsc_reference::log::write_log;
use lsc_reference::reader::read_chart;
use lsc_reference::value::*;

const NUMBERS: [u32; 13] = [
    0,
    1,
    2,
    99,
    100,
    101,
    0x7FFF_FFFE,
    0x7FFF_FFFF,
    0x8000_0000,
    0x8000_0001,
    0xFFFF_FFFD,
    0xFFFF_FFFE,
    0xFFFF_FFFF,
];

fn open() -> LiveMonitor {
    LiveMonitor::open(&CHART_U).unwrap()
}

/// A round that is kept and one that breaks, with time between them; as a plain log, and with raw
/// stamps that return to 0 on the way.
fn rounds() -> [Vec<u8>; 2] {
    let records = [
        headings(0),
        undo(2),
        RecordValue::Time(3),
        references(4),
        headings(42),
        RecordValue::Time(43),
        undo(50),
        headings(91),
        RecordValue::Time(92),
    ];
    let plain = write_log(&records);
    let raw = charts::raw_log(&plain, u32::MAX - 20);
    [plain, raw]
}

/// The numbers that calls add up to: taken, places, and how many had each answer.
fn add(sums: &mut [u64; 8], fed: &lsc::FedLog) {
    let counts = fed.counts;
    let answered = [
        counts.broken,
        counts.kept,
        counts.dropped,
        counts.entered,
        counts.moved,
        counts.quiet,
    ];
    let places = [fed.taken as u64, fed.place as u64];
    let more = places.into_iter().chain(answered.map(u64::from));
    for (sum, more) in sums.iter_mut().zip(more) {
        *sum += more;
    }
}

/// The monitor, the kind, the sums, the last answer and the stop after parts that come one after
/// the other.
fn followed(parts: &[&[u8]]) -> (LiveMonitor, LogKind, [u64; 8], Option<Answer>, Stop) {
    let (mut monitor, mut kind) = (open(), LogKind::default());
    let (mut waiting, mut sums, mut last) = (Vec::new(), [0; 8], None);
    let mut stop = Stop::End;
    for part in parts {
        waiting.extend_from_slice(part);
        let fed = monitor.feed_log(&mut kind, &waiting);
        waiting.drain(..fed.place);
        add(&mut sums, &fed);
        last = fed.last.or(last);
        stop = fed.stop;
        if !matches!(stop, Stop::End | Stop::MoreToCome) {
            break;
        }
    }
    (monitor, kind, sums, last, stop)
}

#[test]
fn every_cut_in_three() {
    for rounds in rounds() {
        // What comes behind the first round, up to before the break and behind it.
        let [kept, unbroken] = [41, 55];
        let other = [rounds[41] ^ 6, 0, 0, 0, 60];
        for (log, stop) in [
            (rounds.clone(), 1),
            (rounds[..unbroken].to_vec(), 0),
            (rounds[..unbroken + 4].to_vec(), 30),
            ([&rounds[..kept], &[9, 1]].concat(), 31),
            ([&rounds[..kept], &other, &[1]].concat(), 32),
            ([&rounds[..kept], &rounds[18..23], &[7]].concat(), 22),
        ] {
            let whole = followed(&[&log]);
            assert_eq!(whole.4.number(), stop, "{log:02X?}");
            for to in 0..=log.len() {
                for from in 0..=to {
                    let parts = [&log[..from], &log[from..to], &log[to..]];
                    assert_eq!(followed(&parts), whole, "{from} {to} of {log:02X?}");
                }
            }
        }
    }
}

/// What a call says and leaves.
fn said(monitor: &LiveMonitor, kind: &[u8; 5], log: &[u8]) -> (u8, [u64; 9], Vec<u8>, [u8; 5]) {
    let (mut live, mut kind, mut out) = (monitor.as_bytes().to_vec(), *kind, [77; 9]);
    let number = lsc::call::feed_log(&mut live, &mut kind, log, &mut out);
    (number, out, live, kind)
}

#[test]
fn every_byte_that_starts_a_kind() {
    let monitor = open();
    let live = monitor.as_bytes().to_vec();
    let one = [1, 5, 6, 0, 0, 0, 0, 0, 1];
    for byte in 0..=255 {
        let kind = [byte, 0, 0, 0, 9];
        let (number, out, after, left) = said(&monitor, &kind, &[2, 0, 0, 0, 0]);
        match byte {
            0 | 1 => assert_eq!((number, out, left), (0, one, [1, 0, 0, 0, 0])),
            2 => assert_eq!((number, out, left), (32, [0; 9], kind)),
            _ => assert_eq!((number, out, left), (21, [77; 9], kind)),
        }
        assert_eq!(after == live, byte > 1);
        let (number, _, _, left) = said(&monitor, &kind, &[4, 0, 0, 0, 10]);
        match byte {
            0 | 2 => assert_eq!((number, left), (0, [2, 0, 0, 0, 10])),
            1 => assert_eq!((number, left), (32, kind)),
            _ => assert_eq!((number, left), (21, kind)),
        }
    }
}

#[test]
fn every_byte_that_starts_a_record() {
    let monitor = open();
    for byte in 0..=255 {
        for length in 1..=9 {
            let log = &[byte, 0, 0, 0, 0, 0, 0, 0, 0][..length];
            for kind in [[0; 5], [1, 0, 0, 0, 0], [2, 0, 0, 0, 0]] {
                let size = if byte % 2 == 1 { 9 } else { 5 };
                let other = kind[0] == if byte < 3 { 2 } else { 1 };
                let (number, out, ..) = said(&monitor, &kind, log);
                let expected = match byte {
                    0 | 5.. => (31, 0, 0),
                    _ if length < size => (30, 0, 0),
                    _ if other => (32, 0, 0),
                    // Behind a record of five bytes stand zeros.
                    _ if length > size => (31, 1, size as u64),
                    _ => (0, 1, size as u64),
                };
                assert_eq!((number, out[0], out[1]), expected, "{kind:?} {log:?}");
            }
        }
    }
}

#[test]
fn stamps_and_times_at_the_ends_of_the_range() {
    let quiet = [1, 5, 6, 0, 0, 0, 0, 0, 1];
    for now in NUMBERS {
        let mut monitor = open();
        monitor.feed_time(now).unwrap();
        let later = |moment: u32| {
            let mut later = monitor.clone();
            later.feed_time(moment).unwrap();
            later.into_bytes()
        };
        let check = |kind: [u8; 5], record: LogKind, number: u32, moment: Result<u32, u8>| {
            let byte = if record == LogKind::Plain { 2 } else { 4 };
            let log = [&[byte][..], &number.to_be_bytes()].concat();
            let stays = monitor.as_bytes().to_vec();
            let expected = match moment {
                Ok(moment) => (0, quiet, later(moment), record.to_bytes()),
                Err(refused) => (refused, [0; 9], stays, kind),
            };
            assert_eq!(said(&monitor, &kind, &log), expected, "{now} {log:?}");
        };
        for number in NUMBERS {
            let time = if number < now { Err(22) } else { Ok(number) };
            check([0; 5], LogKind::Plain, number, time);
            check([1, 9, 9, 9, 9], LogKind::Plain, number, time);
            let last = Stamp(number);
            let first = if now > 0 { Err(22) } else { Ok(0) };
            check([0, 9, 9, 9, 9], LogKind::Raw { last }, number, first);
            for before in NUMBERS {
                let gap = (i64::from(number) - i64::from(before)).rem_euclid(1 << 32);
                let moment = if gap >= 1 << 31 {
                    Err(22)
                } else {
                    u32::try_from(i64::from(now) + gap).map_err(|_| 24)
                };
                let last_before = Stamp(before);
                let kind = LogKind::Raw { last: last_before };
                check(kind.to_bytes(), LogKind::Raw { last }, number, moment);
            }
        }
    }
}

/// A log's records read and fed one by one, each at the moment that is worked out from the stamps:
/// how many were taken, the place, and the number that it stops with.
fn one_by_one(monitor: &mut LiveMonitor, kind: &mut LogKind, log: &[u8]) -> (usize, usize, u8) {
    let (mut taken, mut place) = (0, 0);
    loop {
        let stopped = |number: u8| (taken, place, number);
        let verdict = monitor.standing();
        if verdict.reason.is_some() {
            return stopped(1);
        }
        let (record, behind) = match read_record(log, place) {
            Ok(Some(read)) => read,
            Ok(None) => return stopped(0),
            Err(refusal) => return stopped(refusal.number()),
        };
        let (message, time, stamp) = match record {
            LogRecord::Message {
                source,
                destination,
                label,
                time,
            } => (Some((source, destination, label)), time, None),
            LogRecord::Time { time } => (None, time, None),
            LogRecord::RawMessage {
                source,
                destination,
                label,
                stamp,
            } => (Some((source, destination, label)), 0, Some(stamp)),
            LogRecord::RawTime { stamp } => (None, 0, Some(stamp)),
        };
        let now = u32::from_be_bytes(monitor.as_bytes()[36..40].try_into().unwrap());
        let moment = match (*kind, stamp) {
            (LogKind::NoRecord | LogKind::Plain, None) => time,
            (LogKind::NoRecord, Some(_)) => 0,
            (LogKind::Raw { last }, Some(stamp)) => {
                let gap = stamp.0.wrapping_sub(last.0);
                match now.checked_add(gap) {
                    _ if gap >= 1 << 31 => return stopped(22),
                    None => return stopped(24),
                    Some(moment) => moment,
                }
            }
            _ => return stopped(32),
        };
        let answer = match message {
            Some((source, destination, label)) => {
                monitor.feed_message(source, destination, label, moment)
            }
            None => monitor.feed_time(moment),
        };
        match answer {
            Ok(_) => {}
            Err(FeedRefusal::TimeFalls) => return stopped(22),
            Err(refusal) => return stopped(refusal.number()),
        }
        *kind = match stamp {
            None => LogKind::Plain,
            Some(last) => LogKind::Raw { last },
        };
        (taken, place) = (taken + 1, behind);
    }
}

#[test]
fn as_records_fed_one_by_one() {
    let mut rng = Rng::new(16);
    let mut stops = [0; 33];
    for _ in 0..20_000 {
        let (bytes, chart) = charts::some_small(&mut rng);
        let mut monitor = LiveMonitor::open(&bytes).unwrap();
        let mut kind = LogKind::default();
        // Two logs, the second from where the first ended.
        for _ in 0..2 {
            let count = rng.below(12);
            let log = random::faulty_log_bytes(&mut rng, &chart, count);
            let (mut alone, mut alone_kind) = (monitor.clone(), kind);
            let fed = monitor.feed_log(&mut kind, &log);
            let said = (fed.taken, fed.place, fed.stop.number());
            let wanted = one_by_one(&mut alone, &mut alone_kind, &log);
            assert_eq!(said, wanted, "{bytes:02X?} {log:02X?}");
            assert_eq!((&monitor, kind), (&alone, alone_kind));
            stops[usize::from(said.2)] += 1;
        }
    }
    for number in [0, 1, 22, 24, 30, 31, 32] {
        assert!(stops[number] > 100, "{number}: {stops:?}");
    }
}

#[test]
fn what_is_refused_leaves_every_byte() {
    let fit = open().into_bytes();
    let mut unfit = fit.clone();
    unfit[0] = 1;
    for log in [&[][..], &[2, 0, 0, 0, 9], &[4, 0, 0, 0, 9], &[7]] {
        for (live, kind, places, refused) in [
            (&fit[..], &[0, 0, 0, 0][..], 9, 12),
            (&fit, &[0, 0, 0, 0, 0], 8, 12),
            (&unfit, &[3, 0, 0, 0], 9, 12),
            (&[], &[3, 1, 2, 3, 4], 8, 12),
            (&[], &[0, 1, 2, 3, 4], 9, 20),
            (&fit[..104], &[3, 1, 2, 3, 4], 9, 20),
            (&unfit, &[0, 1, 2, 3, 4], 9, 21),
            (&unfit, &[2, 1, 2, 3, 4], 9, 21),
            (&fit, &[3, 1, 2, 3, 4], 9, 21),
            (&fit, &[255, 1, 2, 3, 4, 5], 11, 21),
        ] {
            let (mut bytes, mut held, mut out) = (live.to_vec(), kind.to_vec(), vec![77; places]);
            let number = lsc::call::feed_log(&mut bytes, &mut held, log, &mut out);
            assert_eq!(number, refused);
            assert_eq!((&bytes[..], &held[..]), (live, kind));
            assert_eq!(out, vec![77; places]);
        }
    }
}

#[test]
fn bytes_beyond_stay() {
    let live = [open().as_bytes(), &[5, 6, 7]].concat();
    for log in [&[][..], &[2, 0, 0, 0, 9], &[4, 0, 0, 0, 9], &[7], &[1, 0]] {
        let mut bytes = live.clone();
        let mut kind = [0, 0, 0, 0, 0, 8, 9];
        let mut out = [77; 12];
        lsc::call::feed_log(&mut bytes, &mut kind, log, &mut out);
        assert_eq!(bytes[59..], live[59..]);
        assert_eq!((&kind[5..], &out[9..]), (&[8, 9][..], &[77; 3][..]));
    }
}

#[test]
fn many_records_in_one_call() {
    let chart = read_chart(&CHART_U).unwrap();
    let plain = charts::keeping_log(&chart, 100_000, 8);
    for log in [charts::raw_log(&plain, u32::MAX - 5_000), plain] {
        let (mut monitor, mut kind) = (open(), LogKind::default());
        let fed = monitor.feed_log(&mut kind, &log);
        assert_eq!((fed.taken, fed.place), (100_000, log.len()));
        assert_eq!(fed.stop, Stop::End);
        let verdict = monitor.standing();
        assert_eq!(lsc::judge(&CHART_U, &log), Ok(verdict));
        assert_eq!((fed.counts.kept, fed.counts.broken), (verdict.kept, 0));
        let counts = fed.counts;
        let answered = [counts.dropped, counts.entered, counts.moved, counts.quiet];
        let others: u32 = answered.iter().sum();
        assert_eq!(others + counts.kept, 100_000);
        // Every round that is kept is entered and moves once; at most one more runs.
        assert!(counts.entered - counts.kept <= 1, "{counts:?}");
        assert!(counts.moved - counts.kept <= 1, "{counts:?}");
        assert_eq!(counts.dropped, verdict.dropped);
    }
}

#[test]
fn the_last_answer_is_that_of_the_last_record() {
    // Entered, moved and kept, each with time behind it, and the break.
    let time = [4, 0, 0, 0, 0];
    let message = |source, destination, label| [3, source, destination, 0, label, 0, 0, 0, 0];
    let records = [
        (message(0, 1, 1).to_vec(), 4),
        (time.to_vec(), 6),
        (message(1, 0, 2).to_vec(), 5),
        (time.to_vec(), 6),
        (message(2, 3, 3).to_vec(), 2),
        (time.to_vec(), 6),
        (message(1, 0, 2).to_vec(), 3),
        (message(0, 1, 1).to_vec(), 4),
        (message(0, 1, 1).to_vec(), 1),
    ];
    let mut log = Vec::new();
    let mut answered = [0; 6];
    for (taken, (record, answer)) in records.iter().enumerate() {
        log.extend(record);
        answered[answer - 1] += 1;
        let (number, out, ..) = said(&open(), &[0; 5], &log);
        assert_eq!(number, if *answer == 1 { 1 } else { 0 });
        let first = [taken as u64 + 1, log.len() as u64, *answer as u64];
        assert_eq!((&out[..3], &out[3..]), (&first[..], &answered[..]));
    }
}

#[test]
fn the_millionth_record_and_the_next() {
    let mut live = open().into_bytes();
    live[40..44].copy_from_slice(&999_998u32.to_be_bytes());
    let monitor = LiveMonitor::from_bytes(live).unwrap();
    let records = |byte: u8, numbers: &[u8]| -> Vec<u8> {
        let records = numbers.iter().map(|number| [byte, 0, 0, 0, *number]);
        records.flatten().collect()
    };
    for (byte, kind, after) in [(2, 1, [0; 4]), (4, 2, [0, 0, 0, 7])] {
        let log = records(byte, &[5, 7, 9]);
        let (number, out, bytes, left) = said(&monitor, &[0; 5], &log);
        assert_eq!((number, out), (23, [2, 10, 6, 0, 0, 0, 0, 0, 2]));
        assert_eq!((left[0], &left[1..]), (kind, &after[..]));
        // Now is the moment of the second record, and so it stays.
        let now = if kind == 1 { 7 } else { 2 };
        assert_eq!(bytes[36..40], [0, 0, 0, now]);
        assert_eq!(bytes[40..44], 1_000_000u32.to_be_bytes());
        let full = LiveMonitor::from_bytes(bytes.clone()).unwrap();
        let (number, out, again, kept) = said(&full, &left, &log[10..]);
        assert_eq!((number, out), (23, [0; 9]));
        assert_eq!((again, kept), (bytes, left));
    }
}
