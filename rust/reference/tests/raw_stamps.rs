//! Logs with raw stamps: moments, refusals and verdicts worked out by hand.

#[path = "common/logs.rs"]
mod logs;

use logs::{foreign, log, plain, raw, raw_log, time, to_the_end, HALF, LAST, LONGEST};
use lsc_reference::declarative::Rows;
use lsc_reference::examples::{headings, references, undo, CHART_U};
use lsc_reference::log::{judge, read_log, read_record, verdict, write_log, Next};
use lsc_reference::print::{input_of, respond, HEADER};
use lsc_reference::reader::read_chart;
use lsc_reference::record::{LogRecord, RawRecord, Stamp};
use lsc_reference::value::*;

/// The moments of a log, or its fault.
fn moments_in(log: &[u8]) -> Result<Vec<u32>, (u8, usize)> {
    read_log(log).map(|records| records.iter().map(RecordValue::time).collect())
}

/// The moments of records of time, 5 bytes each, with these raw stamps.
fn moments(stamps: &[u32]) -> Result<Vec<u32>, (u8, usize)> {
    let records: Vec<RecordValue> = stamps.iter().map(|&stamp| time(stamp)).collect();
    moments_in(&raw_log(&records))
}

/// What is printed for a log over chart U, without the header: judging and the rows say the same.
fn said(log: &[u8]) -> String {
    let chart = read_chart(&CHART_U).unwrap();
    let text = respond(&input_of(&CHART_U, log));
    if let Ok(records) = read_log(log) {
        let monitor = Rows::of(&chart).meaning(&records).monitor();
        assert_eq!(judge(&chart, log), Ok(verdict(&chart, &monitor)));
    }
    match text.strip_prefix(HEADER) {
        Some(numbers) => numbers.trim().to_string(),
        None => text.trim().to_string(),
    }
}

#[test]
fn a_raw_record_is_told_as_raw() {
    let bytes = [
        3, 7, 8, 0x12, 0x34, 0xFF, 0xEE, 0xDD, 0xCC, 4, 0, 0, 1, 2, 1,
    ];
    let with_message = RawRecord {
        message: Some(Message {
            source: 7,
            destination: 8,
            label: 0x1234,
        }),
        stamp: Stamp(0xFFEE_DDCC),
    };
    let of_time = RawRecord {
        message: None,
        stamp: Stamp(0x0102),
    };
    let taken = |record, after| Next::Taken(LogRecord::Raw(record), after);
    assert_eq!(read_record(&bytes, 0), taken(with_message, 9));
    assert_eq!(read_record(&bytes, 9), taken(of_time, 14));
    assert_eq!(read_record(&bytes, 14), Next::Refused(30));
    for place in [15, 16, usize::MAX] {
        assert_eq!(read_record(&bytes, place), Next::End);
    }
    assert_eq!(log(&[LogRecord::Raw(with_message)]), bytes[..9]);
    assert_eq!(log(&[LogRecord::Raw(of_time)]), bytes[9..14]);
    // No raw record is a record to feed.
    assert_eq!(RecordValue::from_bytes(&bytes[..9]), None);
    assert_eq!(RecordValue::from_bytes(&bytes[9..14]), None);
}

#[test]
fn every_record_byte_at_every_length() {
    for byte in 0..=255 {
        for length in 1..=10 {
            let whole = match byte {
                1 | 3 => 9,
                2 | 4 => 5,
                _ => 0,
            };
            let said = read_record(&vec![byte; length], 0);
            match whole {
                0 => assert_eq!(said, Next::Refused(31)),
                _ if length < whole => assert_eq!(said, Next::Refused(30)),
                _ => assert!(matches!(said, Next::Taken(_, after) if after == whole)),
            }
        }
    }
}

#[test]
fn the_first_stamp_is_moment_0() {
    for stamp in [0, 1, 100, LONGEST, HALF, LAST - 1, LAST] {
        assert_eq!(moments(&[stamp]), Ok(vec![0]));
        assert_eq!(moments_in(&raw_log(&[undo(stamp)])), Ok(vec![0]));
        assert_eq!(said(&raw_log(&[undo(stamp)])), "2 0 0 1 0 0 0 0");
    }
    // Clock 0 is at least 3: it is 3 at a plain time of 3, 0 at a raw stamp of 3.
    let waits = [
        0x10, 2, 1, 0x50, 0x20, 0, 1, 0, 1, 0x30, 0, 3, 0, 0, 0, 3, 0x7F,
    ];
    let chart = read_chart(&waits).unwrap();
    let numbers = |log: &[u8]| judge(&chart, log).unwrap().numbers();
    assert_eq!(numbers(&write_log(&[undo(3)])), [0, 1, 0, 1, 0, 0, 0, 0]);
    assert_eq!(numbers(&raw_log(&[undo(3)])), [0, 0, 1, 1, 0, 0, 0, 0]);
    // After a record of time at 10 the clock is 3 at 13.
    let later = raw_log(&[time(10), undo(13)]);
    assert_eq!(numbers(&later), [0, 1, 0, 2, 0, 0, 0, 0]);
}

#[test]
fn differences_are_taken_round_the_wrap() {
    assert_eq!(moments(&[LAST, 0]), Ok(vec![0, 1]));
    assert_eq!(moments(&[LAST, LAST, 0, 0]), Ok(vec![0, 0, 1, 1]));
    assert_eq!(moments(&[LAST - 5, LAST, 0, 4]), Ok(vec![0, 5, 6, 10]));
    assert_eq!(moments(&[0xFFFF_FFF0, 0x10]), Ok(vec![0, 32]));
    // Once round, up to the stamp one below the first.
    let first = 0x1234_5678;
    let stamps = [
        first,
        first + LONGEST,
        first.wrapping_add(LAST - 1),
        first - 1,
    ];
    assert_eq!(moments(&stamps), Ok(vec![0, LONGEST, LAST - 1, LAST]));
}

#[test]
fn gaps_that_are_taken_and_gaps_that_fall() {
    for first in [0, 7, LONGEST, HALF, HALF + 1, LAST - 1, LAST] {
        let after = |gap: u32| moments(&[first, first.wrapping_add(gap)]);
        for gap in [0, 1, 5, LONGEST - 1, LONGEST] {
            assert_eq!(after(gap), Ok(vec![0, gap]));
        }
        for gap in [HALF, HALF + 1, LAST - 1, LAST] {
            assert_eq!(after(gap), Err((22, 5)));
        }
    }
    // True times 7 and 7 + 2^32 + 5 show 7 and 12.
    let shown = [7u64, 7 + (1 << 32) + 5].map(|ticks| ticks as u32);
    assert_eq!(moments(&shown), Ok(vec![0, 5]));
    // A stamp one below is a gap of 2^32 - 1, at the wrap too.
    assert_eq!(moments(&[7, 6]), Err((22, 5)));
    assert_eq!(moments(&[0, LAST]), Err((22, 5)));
    // A plain log may leap further, and fall never.
    assert_eq!(
        moments_in(&write_log(&[time(0), time(LAST)])),
        Ok(vec![0, LAST])
    );
    assert_eq!(moments_in(&write_log(&[time(7), time(6)])), Err((22, 5)));
}

#[test]
fn the_difference_is_to_the_record_before() {
    // To the first it would be 2^31 + 5, and refused.
    let stamps = [0, LONGEST, HALF + 5];
    assert_eq!(moments(&stamps), Ok(vec![0, LONGEST, HALF + 5]));
    // To the first it would be 50, and taken.
    assert_eq!(moments(&[100, 200, 150]), Err((22, 10)));
    // Foreign messages and records of time are records before, of 9 and of 5 bytes.
    for between in [foreign, time] {
        let far = raw_log(&[undo(0), between(LONGEST), headings(HALF + 5)]);
        assert_eq!(moments_in(&far), Ok(vec![0, LONGEST, HALF + 5]));
        // Clock 0 is 2^31 + 5: broken.
        assert_eq!(said(&far), "3 0 0 3 3 2 2 1");
        let back = raw_log(&[undo(100), between(200), headings(130)]);
        let offset = 9 + raw_log(&[between(0)]).len();
        assert_eq!(said(&back), format!("refused log 22 at {offset}"));
    }
    // Both between, over the whole range: the moments end at 4,294,967,294.
    let far = raw_log(&[undo(9), time(9 + LONGEST), foreign(7), headings(8)]);
    assert_eq!(moments_in(&far), Ok(vec![0, LONGEST, LAST - 1, LAST]));
}

#[test]
fn moments_up_to_the_last_one() {
    for first in [0, 1, 100, HALF, LAST] {
        let end = to_the_end(first);
        let after = |gap: u32| {
            let stamps = [&end[..], &[end[3].wrapping_add(gap)]].concat();
            moments(&stamps)
        };
        assert_eq!(moments(&end), Ok(vec![0, LONGEST, LAST - 1, LAST]));
        assert_eq!(after(0), Ok(vec![0, LONGEST, LAST - 1, LAST, LAST]));
        // 2^32 and more, which are 0 and more in 32 bits.
        for gap in [1, 2, LONGEST] {
            assert_eq!(after(gap), Err((24, 20)));
        }
        // 2^32 exactly, from 2^32 - 2 on; and 2^32 - 2 + 2^31 - 1.
        let [a, b, c, _] = end;
        assert_eq!(moments(&[a, b, c, c.wrapping_add(2)]), Err((24, 15)));
        let far = c.wrapping_add(LONGEST);
        assert_eq!(moments(&[a, b, c, far]), Err((24, 15)));
    }
    // Three gaps of 2^30 and one less by one: 2^32 - 1; one of 2^30 more: 2^32.
    let quarter = |turn: u32| turn.wrapping_mul(1 << 30);
    let four = [0, quarter(1), quarter(2), quarter(3)];
    let with = |last: u32| moments(&[&four[..], &[last]].concat());
    assert_eq!(
        with(LAST),
        Ok(vec![0, quarter(1), quarter(2), quarter(3), LAST])
    );
    assert_eq!(with(0), Err((24, 20)));
}

#[test]
fn raw_and_plain_in_one_log() {
    for stamp in [0, 99, 100, 101, LAST] {
        let raw_after = log(&[plain(undo(100)), raw(time(stamp))]);
        assert_eq!(said(&raw_after), "refused log 32 at 9");
        let plain_after = log(&[raw(time(100)), plain(undo(stamp))]);
        assert_eq!(said(&plain_after), "refused log 32 at 5");
    }
    // Later on, and by foreign messages and records of time.
    let mixed = log(&[raw(undo(1)), raw(time(2)), raw(foreign(3)), plain(time(4))]);
    assert_eq!(said(&mixed), "refused log 32 at 23");
    let mixed = log(&[plain(undo(1)), plain(time(2)), raw(foreign(3))]);
    assert_eq!(said(&mixed), "refused log 32 at 14");
}

#[test]
fn of_several_faults_at_a_record_the_first_decides() {
    // 32 before 22: as a record of the other kind it would fall.
    assert_eq!(
        moments_in(&log(&[plain(time(9)), raw(time(8))])),
        Err((32, 5))
    );
    assert_eq!(
        moments_in(&log(&[raw(time(9)), plain(time(8))])),
        Err((32, 5))
    );
    let end = to_the_end(50).map(|stamp| raw(time(stamp)));
    let after = |last: LogRecord| moments_in(&log(&[&end[..], &[last]].concat()));
    // The last moment is 2^32 - 1, at stamp 49. 24 alone; 32 before it; 22 before it.
    assert_eq!(after(raw(time(50))), Err((24, 20)));
    assert_eq!(after(plain(time(50))), Err((32, 20)));
    assert_eq!(after(plain(time(LAST))), Err((32, 20)));
    assert_eq!(after(raw(time(49 + HALF))), Err((22, 20)));
    assert_eq!(after(raw(time(48))), Err((22, 20)));
    // 31 and 30 before all: a record byte of the other kind, cut short, and an unknown one.
    for (first, rest) in [
        (raw(time(9)), &[1, 0, 0, 0, 0, 0, 0, 0][..]),
        (raw(time(9)), &[2, 0, 0, 0]),
        (raw(time(9)), &[3, 0, 0, 0, 0, 0, 0, 0]),
        (raw(time(9)), &[4]),
        (plain(time(9)), &[3, 0, 0, 0, 0, 0, 0, 0]),
        (plain(time(9)), &[4, 0, 0, 0]),
    ] {
        let cut = [&first.to_bytes()[..], rest].concat();
        assert_eq!(moments_in(&cut), Err((30, 5)));
        let unknown = [&first.to_bytes()[..], &[5], rest].concat();
        assert_eq!(moments_in(&unknown), Err((31, 5)));
    }
    // The first fault from the left decides, whatever comes after it.
    let two = log(&[raw(time(9)), raw(time(8)), plain(time(9))]);
    assert_eq!(moments_in(&two), Err((22, 5)));
    let two = log(&[raw(time(9)), plain(time(9)), raw(time(8))]);
    assert_eq!(moments_in(&two), Err((32, 5)));
    // 20 comes before every fault of the log.
    assert_eq!(judge(&ChartValue::ZERO, &two), Err((20, 0)));
}

#[test]
fn the_millionth_record_and_the_next() {
    let chart = read_chart(&CHART_U).unwrap();
    // 999,997 records at moment 0, then up to 4,294,967,295.
    let [first, second, third, last] = to_the_end(77);
    let mut full = raw(time(first)).to_bytes().repeat(999_997);
    full.extend(raw_log(&[time(second), time(third), time(last)]));
    assert_eq!(judge(&chart, &full).unwrap().records, 1_000_000);
    let after = |record: LogRecord| {
        let log = [&full[..], &record.to_bytes()].concat();
        judge(&chart, &log).unwrap_err()
    };
    assert_eq!(after(raw(time(last))), (23, 5_000_000));
    assert_eq!(after(raw(time(last + 1))), (24, 5_000_000));
    assert_eq!(after(raw(time(last - 1))), (22, 5_000_000));
    assert_eq!(after(plain(time(LAST))), (32, 5_000_000));
    let cut = [&full[..], &[1]].concat();
    assert_eq!(judge(&chart, &cut), Err((30, 5_000_000)));
    // The same with plain records before.
    let full = plain(time(5)).to_bytes().repeat(1_000_000);
    let after = |record: LogRecord| moments_in(&[&full[..], &record.to_bytes()].concat());
    assert_eq!(after(raw(time(5))), Err((32, 5_000_000)));
    assert_eq!(after(plain(time(5))), Err((23, 5_000_000)));
}

#[test]
fn a_bound_across_the_wrap() {
    // Undo 16 ticks before the wrap. Headings 24 behind it: clock 0 is 40, and holds; 25: 41.
    let at = |references_at, headings_at| {
        raw_log(&[
            undo(LAST - 15),
            references(references_at),
            headings(headings_at),
        ])
    };
    assert_eq!(said(&at(0, 24)), "0 1 0 3 0 0 0 0");
    assert_eq!(said(&at(0, 25)), "3 0 0 3 3 2 2 1");
    assert_eq!(said(&at(LAST, 24)), "0 1 0 3 0 0 0 0");
    assert_eq!(said(&at(24, 24)), "0 1 0 3 0 0 0 0");
    assert_eq!(said(&at(25, 25)), "3 0 0 2 2 2 3 1");
    // The same when the undo comes later in its log, at moment 240.
    let later = |headings_at| {
        raw_log(&[
            time(LAST - 255),
            undo(LAST - 15),
            references(3),
            headings(headings_at),
        ])
    };
    assert_eq!(said(&later(24)), "0 1 0 4 0 0 0 0");
    assert_eq!(said(&later(25)), "3 0 0 4 4 2 2 1");
    // Two rounds, the wrap in the second.
    let two = raw_log(&[
        undo(LAST - 99),
        references(LAST - 60),
        headings(LAST - 59),
        undo(LAST),
        headings(38),
        references(39),
    ]);
    assert_eq!(said(&two), "0 2 0 6 0 0 0 0");
}

#[test]
fn a_raw_log_stands_for_the_plain_log_of_its_moments() {
    let records = [
        undo(0),
        time(7),
        references(20),
        foreign(33),
        headings(40),
        undo(41),
    ];
    let expected = "2 1 0 6 0 0 0 0";
    assert_eq!(said(&write_log(&records)), expected);
    for first in [0, 1, 1_000, HALF - 20, LAST - 41, LAST - 20, LAST] {
        let shifted = records.map(|record| record.with_time(record.time().wrapping_add(first)));
        let log = raw_log(&shifted);
        assert_eq!(read_log(&log), Ok(records.to_vec()));
        assert_eq!(said(&log), expected);
    }
}

#[test]
fn a_refused_log_is_fed_nothing() {
    // Undo twice is a break at record 2; the fault behind it refuses the log all the same.
    let broken = [raw(undo(1)), raw(undo(2))];
    assert_eq!(said(&log(&broken)), "3 0 0 2 2 1 0 0");
    for (last, refused) in [
        (raw(time(1)), "refused log 22 at 18"),
        (plain(time(3)), "refused log 32 at 18"),
    ] {
        let log = log(&[&broken[..], &[last]].concat());
        assert_eq!(said(&log), refused);
    }
}

/// A number from a small generator.
fn draw(state: &mut u64) -> u64 {
    *state = state
        .wrapping_mul(0x5851_F42D_4C95_7F2D)
        .wrapping_add(0x1405_7B7E_F767_814F);
    *state >> 33
}

/// A gap below 2^31, of any size.
fn some_gap(state: &mut u64) -> u64 {
    let bits = draw(state) % 32;
    draw(state) % (1 << bits)
}

/// Times that never fall, each gap below 2^31, the first at any tick of a long-running counter.
fn true_times(state: &mut u64) -> Vec<u64> {
    let mut now = draw(state) * draw(state) % (1 << 45);
    let count = draw(state) % 40;
    let mut times = vec![now];
    for _ in 0..count {
        now += some_gap(state);
        times.push(now);
    }
    times
}

/// What the 32-bit counter shows.
fn shown(times: &[u64]) -> Vec<u32> {
    times.iter().map(|time| (time % (1 << 32)) as u32).collect()
}

#[test]
fn moments_are_the_true_times_since_the_first() {
    let mut state = 20;
    let (mut wraps, mut late) = (0, 0);
    for _ in 0..20_000 {
        let times = true_times(&mut state);
        let since: Vec<u64> = times.iter().map(|time| time - times[0]).collect();
        let fits = since.iter().take_while(|&&ticks| ticks < 1 << 32).count();
        let stamps = shown(&times);
        let expected: Vec<u32> = since[..fits].iter().map(|&ticks| ticks as u32).collect();
        assert_eq!(moments(&stamps[..fits]), Ok(expected));
        wraps += usize::from(!stamps[..fits].is_sorted());
        // The first record that is too far behind the first one.
        if fits < times.len() {
            late += 1;
            assert_eq!(moments(&stamps), Err((24, 5 * fits)));
        }
    }
    assert!(wraps > 500 && late > 500, "{wraps} {late}");
}
