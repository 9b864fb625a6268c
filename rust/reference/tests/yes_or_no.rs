//! Whether a log breaks its chart: answers and refusals worked out by hand, and the same from
//! judging.

#[path = "common/logs.rs"]
mod logs;

use logs::{foreign, log, plain, raw, raw_log, time, to_the_end, HALF, LAST, LONGEST};
use lsc_reference::examples::{headings, message, references, undo, CHART_U, OVER_CHART_U};
use lsc_reference::log::{breaks, judge, write_log};
use lsc_reference::reader::read_chart;
use lsc_reference::record::LogRecord;
use lsc_reference::value::*;

/// An answer, or a refusal and its offset.
type Said = Result<bool, (u8, usize)>;

const NO: Said = Ok(false);
const YES: Said = Ok(true);

/// Whether the log breaks chart U.
fn said(log: &[u8]) -> Said {
    breaks(&read_chart(&CHART_U).unwrap(), log)
}

/// What judging by chart U refuses.
fn refused(log: &[u8]) -> Option<(u8, usize)> {
    judge(&read_chart(&CHART_U).unwrap(), log).err()
}

#[test]
fn over_chart_u() {
    let expected = [NO, YES, NO, YES, YES, NO, NO, NO, Err((22, 9))];
    for ((records, verdict), expected) in OVER_CHART_U.into_iter().zip(expected) {
        assert_eq!(said(&write_log(records)), expected, "{verdict}");
    }
}

#[test]
fn a_break_by_a_condition() {
    // Clock 0 is 40 at 140, 41 at 141.
    assert_eq!(said(&write_log(&[undo(100), headings(140)])), NO);
    assert_eq!(said(&write_log(&[undo(100), headings(141)])), YES);
    // A round is kept at 140, and the next one breaks at 191.
    let kept = [undo(100), headings(120), references(140)];
    let next = [undo(150), references(190)];
    let rounds = [&kept[..], &next].concat();
    assert_eq!(said(&write_log(&rounds)), NO);
    let late = [&rounds[..], &[headings(191)]].concat();
    assert_eq!(said(&write_log(&late)), YES);
    // Go; then a plain region with clock 0 at least 3, hot, which go makes ready.
    let settles = [
        0x10, 2, 1, 0x20, 0, 1, 0, 1, 0x50, 0x21, 0, 1, 0x30, 0, 3, 0, 0, 0, 3, 0x32, 0x20, 1, 0,
        0, 2, 0x7F,
    ];
    let chart = read_chart(&settles).unwrap();
    let go = |time| breaks(&chart, &write_log(&[message(0, 1, 1, time)]));
    assert_eq!((go(2), go(3)), (YES, NO));
}

#[test]
fn a_break_by_no_ready_region() {
    // In the prechart it is a drop. Once undo was seen, headings is owed once and undo never.
    assert_eq!(said(&write_log(&[headings(1), references(2)])), NO);
    assert_eq!(said(&write_log(&[undo(3), undo(3)])), YES);
    let twice = [headings(1), undo(2), headings(3), headings(3)];
    assert_eq!(said(&write_log(&twice[..3])), NO);
    assert_eq!(said(&write_log(&twice)), YES);
    // Records of time and foreign messages break nothing.
    assert_eq!(said(&write_log(&[undo(3), time(99), foreign(99)])), NO);
    // A, then b, then c in the main chart: the second a opens a round again, the second b is out
    // of order in the main chart.
    let two_then_one = [
        0x10, 2, 0, 0x20, 0, 1, 0, 1, 0x20, 0, 1, 0, 2, 0x50, 0x20, 1, 0, 0, 3, 0x7F,
    ];
    let chart = read_chart(&two_then_one).unwrap();
    let [a, b] = [message(0, 1, 1, 7), message(0, 1, 2, 7)];
    assert_eq!(breaks(&chart, &write_log(&[a, a, b])), NO);
    assert_eq!(breaks(&chart, &write_log(&[a, a, b, b])), YES);
}

#[test]
fn a_cold_condition_breaks_nothing() {
    // Go resets clock 0; done with clock 0 at most 10, cold. At 16 it is 11: dropped. Then go
    // twice: no ready region.
    let cold = [
        0x10, 2, 1, 0x20, 0, 1, 0, 1, 0x40, 1, 0x50, 0x20, 1, 0, 0, 2, 0x30, 0, 1, 0, 0, 0, 10,
        0x7F,
    ];
    let chart = read_chart(&cold).unwrap();
    let go = |time| message(0, 1, 1, time);
    let records = [go(5), message(1, 0, 2, 16), go(20), go(21)];
    assert_eq!(breaks(&chart, &write_log(&records[..3])), NO);
    assert_eq!(breaks(&chart, &write_log(&records)), YES);
}

#[test]
fn raw_logs() {
    // Undo 16 ticks before the wrap. Headings 24 behind it: clock 0 is 40; 25: 41.
    let at = |headings_at| raw_log(&[undo(LAST - 15), references(0), headings(headings_at)]);
    assert_eq!((said(&at(24)), said(&at(25))), (NO, YES));
    assert_eq!(said(&raw_log(&[undo(LAST), undo(0)])), YES);
    // Clock 0 is 2^31 - 1.
    assert_eq!(said(&raw_log(&[undo(7), headings(7 + LONGEST)])), YES);
}

/// The record's bytes with another first one.
fn starting_with(byte: u8, record: LogRecord) -> Vec<u8> {
    let mut bytes = record.to_bytes();
    bytes[0] = byte;
    bytes
}

/// The record's bytes without the last.
fn cut(record: LogRecord) -> Vec<u8> {
    let mut bytes = record.to_bytes();
    bytes.pop();
    bytes
}

/// Makes a record of a log of one kind.
type Kind = fn(RecordValue) -> LogRecord;

/// Faulty records behind one at 110 in a log of this kind, and their refusals. Each undo among them
/// would break chart U after an undo.
fn faults(kind: Kind, other: Kind) -> Vec<(Kind, Vec<u8>, u8)> {
    let faults = [
        (vec![0], 31),
        (vec![5], 31),
        (starting_with(0, kind(undo(110))), 31),
        (starting_with(5, kind(time(110))), 31),
        (vec![1], 30),
        (vec![4], 30),
        (cut(kind(undo(110))), 30),
        (cut(kind(time(110))), 30),
        (cut(other(undo(110))), 30),
        (other(undo(110)).to_bytes(), 32),
        (other(undo(109)).to_bytes(), 32),
        (other(time(111)).to_bytes(), 32),
        (kind(undo(109)).to_bytes(), 22),
        (kind(time(109)).to_bytes(), 22),
        (kind(foreign(109)).to_bytes(), 22),
    ];
    let with_kind = |(fault, number)| (kind, fault, number);
    faults.map(with_kind).into()
}

/// The faults of both kinds of log. A raw stamp half round falls too.
fn faults_of_both() -> Vec<(Kind, Vec<u8>, u8)> {
    let mut all = faults(plain, raw);
    all.extend(faults(raw, plain));
    for record in [undo(110 + HALF), time(110 + HALF)] {
        all.push((raw, raw(record).to_bytes(), 22));
    }
    all
}

#[test]
fn a_fault_before_the_break_is_refused() {
    for (kind, fault, number) in faults_of_both() {
        let first = kind(undo(110)).to_bytes();
        let at_fault = [&first[..], &fault].concat();
        assert_eq!(said(&at_fault), Err((number, 9)), "{fault:02X?}");
        // The undo behind it would break the chart; behind a cut record there is none.
        if number != 30 {
            let more = [&at_fault[..], &kind(undo(111)).to_bytes()].concat();
            assert_eq!(said(&more), Err((number, 9)), "{fault:02X?}");
        }
    }
}

#[test]
fn a_fault_behind_the_break_is_not_seen() {
    for (kind, fault, number) in faults_of_both() {
        let broken = log(&[kind(undo(100)), kind(undo(110))]);
        let directly = [&broken[..], &fault].concat();
        assert_eq!(said(&directly), YES, "{fault:02X?}");
        assert_eq!(refused(&directly), Some((number, 18)));
        let later = [&broken[..], &kind(time(110)).to_bytes(), &fault].concat();
        assert_eq!(said(&later), YES, "{fault:02X?}");
        assert_eq!(refused(&later), Some((number, 23)));
    }
}

#[test]
fn a_faulty_record_that_would_break_is_refused() {
    // Clock 0 would be 49: the condition fails, and the time falls.
    let falls = write_log(&[undo(100), time(150), headings(149)]);
    assert_eq!(said(&falls), Err((22, 14)));
    let in_time = write_log(&[undo(100), time(150), headings(150)]);
    assert_eq!(said(&in_time), YES);
    let falls = raw_log(&[undo(100), time(150), headings(149)]);
    assert_eq!(said(&falls), Err((22, 14)));
    // The clock of a raw log would be 2^31.
    assert_eq!(said(&raw_log(&[undo(7), headings(7 + HALF)])), Err((22, 9)));
    // Of the other kind: clock 0 would be 50.
    let mixed = log(&[plain(undo(100)), raw(headings(150))]);
    assert_eq!(said(&mixed), Err((32, 9)));
    let mixed = log(&[raw(undo(100)), plain(headings(150))]);
    assert_eq!(said(&mixed), Err((32, 9)));
    // A faulty record is not fed, so the round would still go on behind it.
    let kept = [plain(undo(100)), plain(undo(99)), plain(headings(120))];
    assert_eq!(said(&log(&kept)), Err((22, 9)));
}

#[test]
fn a_moment_too_late() {
    // Four records of time up to 4,294,967,295, at stamp 76, and undo there, at 20.
    let mut at_the_end: Vec<RecordValue> = to_the_end(77).map(time).to_vec();
    at_the_end.push(undo(76));
    let with = |more: &[RecordValue]| raw_log(&[&at_the_end[..], more].concat());
    assert_eq!(said(&with(&[])), NO);
    assert_eq!(said(&with(&[undo(76)])), YES);
    assert_eq!(said(&with(&[undo(77)])), Err((24, 29)));
    assert_eq!(said(&with(&[headings(76 + LONGEST)])), Err((24, 29)));
    assert_eq!(said(&with(&[time(77), undo(76)])), Err((24, 29)));
    assert_eq!(said(&with(&[undo(75)])), Err((22, 29)));
    for (last, number) in [(undo(77), 24), (time(77), 24), (time(75), 22)] {
        let behind = with(&[undo(76), last]);
        assert_eq!(said(&behind), YES);
        assert_eq!(refused(&behind), Some((number, 38)));
    }
}

#[test]
fn the_first_record() {
    assert_eq!(said(&[]), NO);
    for (log, number) in [
        (&[0][..], 31),
        (&[5, 0, 0, 0, 0], 31),
        (&[1], 30),
        (&[3, 0, 1, 0, 1, 0, 0, 0], 30),
        (&[2, 0, 0, 0], 30),
    ] {
        assert_eq!(said(log), Err((number, 0)));
    }
    // No prechart, and a hot condition that fails at once: clock 0 is 3 at a plain time of 3, and
    // 0 at the first raw stamp.
    let at_once = [
        0x10, 2, 1, 0x50, 0x20, 0, 1, 0, 1, 0x30, 0, 1, 0, 0, 0, 2, 0x32, 0x7F,
    ];
    let chart = read_chart(&at_once).unwrap();
    assert_eq!(breaks(&chart, &write_log(&[undo(3)])), YES);
    assert_eq!(breaks(&chart, &raw_log(&[undo(3)])), NO);
    let behind = [undo(3).to_bytes(), vec![0]].concat();
    assert_eq!(breaks(&chart, &behind), YES);
}

#[test]
fn a_value_that_is_no_chart() {
    let chart = read_chart(&CHART_U).unwrap();
    let one_line = ChartValue { lines: 1, ..chart };
    let broken = write_log(&[undo(100), undo(110)]);
    for log in [&[][..], &[0], &[1], &broken] {
        for none in [ChartValue::ZERO, one_line] {
            assert_eq!(breaks(&none, log), Err((20, 0)));
        }
    }
}

#[test]
fn the_millionth_record_and_the_next() {
    for kind in [plain, raw] {
        let times = |count: usize| kind(time(5)).to_bytes().repeat(count);
        let undo = kind(undo(5)).to_bytes();
        // Each record of time has 5 bytes, each undo 9.
        let full = times(1_000_000);
        assert_eq!(said(&full), NO);
        let one_more = |record: &[u8]| said(&[&full[..], record].concat());
        assert_eq!(one_more(&kind(time(5)).to_bytes()), Err((23, 5_000_000)));
        assert_eq!(one_more(&undo), Err((23, 5_000_000)));
        assert_eq!(one_more(&kind(time(4)).to_bytes()), Err((22, 5_000_000)));
        assert_eq!(one_more(&[2]), Err((30, 5_000_000)));
        // Undo as record 1,000,000; the next would break.
        let owed = [&times(999_999)[..], &undo].concat();
        assert_eq!(said(&owed), NO);
        let next = [&owed[..], &undo].concat();
        assert_eq!(said(&next), Err((23, 5_000_004)));
        // Broken at record 1,000,000, and at record 2.
        for broken in [
            [&times(999_998)[..], &undo, &undo].concat(),
            [&undo[..], &undo, &times(999_998)].concat(),
        ] {
            assert_eq!(said(&broken), YES);
            let beyond = [&broken[..], &times(1)].concat();
            assert_eq!(said(&beyond), YES);
            assert_eq!(refused(&beyond), Some((23, 5_000_008)));
        }
    }
}

/// Yes if judging finds one of the log's beginnings broken; else what it says of the whole.
fn by_judging(chart: &ChartValue, log: &[u8]) -> Said {
    let broken = |log: &[u8]| judge(chart, log).map(|verdict| verdict.broken.is_some());
    if (0..log.len()).any(|length| broken(&log[..length]) == YES) {
        return YES;
    }
    broken(log)
}

/// The logs with each of the pieces behind each of them.
fn extended(logs: &[Vec<u8>], pieces: &[Vec<u8>]) -> Vec<Vec<u8>> {
    let with_each = |log: &Vec<u8>| {
        pieces
            .iter()
            .map(|piece| [&log[..], piece].concat())
            .collect()
    };
    logs.iter().flat_map::<Vec<Vec<u8>>, _>(with_each).collect()
}

#[test]
fn every_log_of_up_to_four_pieces() {
    let chart = read_chart(&CHART_U).unwrap();
    let pieces = [
        plain(undo(100)).to_bytes(),
        plain(headings(120)).to_bytes(),
        plain(references(141)).to_bytes(),
        plain(time(119)).to_bytes(),
        raw(undo(100)).to_bytes(),
        raw(headings(141)).to_bytes(),
        raw(time(99)).to_bytes(),
        vec![7],
        vec![1, 0],
    ];
    let mut logs = vec![Vec::new()];
    let mut all = logs.clone();
    for _ in 0..4 {
        logs = extended(&logs, &pieces);
        all.extend_from_slice(&logs);
    }
    // Both answers to logs that judging accepts; yes and refusals for those that it refuses.
    let (mut no, mut yes, mut behind, mut faults) = (0, 0, 0, 0);
    for log in all {
        let answer = breaks(&chart, &log);
        assert_eq!(answer, by_judging(&chart, &log), "{log:02X?}");
        match (judge(&chart, &log), answer) {
            (Ok(verdict), Ok(broken)) => {
                assert_eq!(broken, verdict.standing == 3);
                no += usize::from(!broken);
                yes += usize::from(broken);
            }
            (Err(_), Ok(_)) => behind += 1,
            (judged, answer) => {
                assert_eq!(judged.err(), answer.err());
                faults += 1;
            }
        }
    }
    let counts = [no, yes, behind, faults];
    assert!(counts.iter().all(|&count| count > 40), "{counts:?}");
}
