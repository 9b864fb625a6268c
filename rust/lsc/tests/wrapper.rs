//! The safe wrapper on the examples of the rules (X).

use lsc::{Answer, Cause, FeedRefusal, LiveMonitor, Part, Reason, Refusal, Standing};
use lsc::{Counts, FedLog, LogKind, LogRefusal, Stop};
use lsc::{Foreseen, LogRecord, RecordRefusal, Stamp, WriteRefusal};
use lsc_reference::examples::{longest, CHART_U, OVER_CHART_U, OVER_PAUSED, PAUSED};
use lsc_reference::log::write_log;
use lsc_reference::print::input_of;

#[test]
fn logs_over_chart_u() {
    for (records, expected) in OVER_CHART_U {
        let said = match lsc::judge(&CHART_U, &write_log(records)) {
            Ok(verdict) => verdict.to_string(),
            Err(refusal) => refusal.to_string(),
        };
        assert_eq!(said, expected);
    }
}

#[test]
fn charts_that_are_refused() {
    let refused = |number, offset| {
        Err(Refusal {
            part: Part::Chart,
            number,
            offset,
        })
    };
    assert_eq!(lsc::judge(&[], &[]), refused(1, 0));
    assert_eq!(lsc::judge(&[0x10, 1, 0], &[]), refused(4, 0));
    let plain = [0x10, 2, 1, 0x21, 0, 1, 0x40, 1, 0x50, 0x7F];
    assert_eq!(lsc::judge(&plain, &[]), refused(9, 3));
    assert_eq!(LiveMonitor::open(&plain).err(), refused(9, 3).err());
}

#[test]
fn printed_texts() {
    let (records, numbers) = OVER_CHART_U[0];
    let text = format!("STANDING KEPT DROPPED RECORDS BREAK REASON REGION TERM\n{numbers}\n");
    assert_eq!(lsc::print(&input_of(&CHART_U, &write_log(records))), text);
    assert_eq!(lsc::print(&[0]), "refused input 41 at 0\n");
    assert_eq!(lsc::print(&[0; 65_537]), "refused input 40 at 0\n");
    assert_eq!(lsc::print(&[0, 0]), "refused chart 1 at 0\n");
}

#[test]
fn a_live_monitor_is_stored_and_taken_up_again() {
    let mut monitor = LiveMonitor::open(&CHART_U).unwrap();
    assert_eq!(monitor.feed_time(7), Ok(Answer::Quiet));
    assert_eq!(monitor.standing().standing, Standing::Open);
    assert_eq!(monitor.feed_message(0, 1, 1, 100), Ok(Answer::Entered));
    assert_eq!(monitor.feed_time(99), Err(FeedRefusal::TimeFalls));
    let mut again = LiveMonitor::from_bytes(monitor.as_bytes().to_vec()).unwrap();
    assert_eq!(again, monitor);
    assert_eq!(again.standing().standing, Standing::Owed);
    let broken = Answer::Broken {
        record: 3,
        reason: Reason::NoReadyRegion,
    };
    assert_eq!(again.feed_message(0, 1, 1, 100), Ok(broken));
    assert_eq!(again.feed_time(0), Ok(broken));
    assert_eq!(again.standing().to_string(), "3 0 0 3 3 1 0 0");
    assert_eq!(again.standing().reason, Some(Reason::NoReadyRegion));
    assert_eq!(again.standing().cause, None);
    assert_eq!(monitor.standing().reason, None);
    assert_ne!(again.into_bytes(), monitor.into_bytes());
}

#[test]
fn the_condition_that_decides() {
    // Data with clock 0 at most 9, cold; then, in the main chart, a plain region that resets clock
    // 1, and an answer with clock 0 at most 20 and at most 5 more than clock 1, hot.
    let chart = [
        0x10, 2, 2, 0x20, 0, 1, 0, 1, 0x30, 0, 1, 0, 0, 0, 9, 0x50, 0x21, 0, 1, 0x40, 2, 0x20, 1,
        0, 0, 2, 0x30, 0, 1, 0, 0, 0, 20, 0x31, 0, 1, 1, 0, 0, 0, 5, 0x32, 0x7F,
    ];
    let mut monitor = LiveMonitor::open(&chart).unwrap();
    let cause = |region, term| Some(Cause { region, term });
    let mut data = |time| monitor.feed_message_why(0, 1, 1, time);
    assert_eq!(data(10), Ok((Answer::Dropped, cause(1, 1))));
    assert_eq!(data(9), Err(FeedRefusal::TimeFalls));
    assert_eq!(data(16), Ok((Answer::Entered, None)));
    assert_eq!(monitor.standing().cause, None);
    // Clock 0 is 7, clock 1 is 1.
    let broken = Answer::Broken {
        record: 3,
        reason: Reason::ConditionFails,
    };
    let mut answer = |time| monitor.feed_message_why(1, 0, 2, time);
    assert_eq!(answer(17), Ok((broken, cause(3, 2))));
    assert_eq!(answer(0), Ok((broken, cause(3, 2))));
    assert_eq!(monitor.feed_message(1, 0, 2, 17), Ok(broken));
    assert_eq!(monitor.standing().cause, cause(3, 2));
    assert_eq!(monitor.standing().to_string(), "3 0 1 3 3 2 3 2");
    assert_eq!(cause(3, 2).unwrap().to_string(), "region 3, term 2");
    // The reason stands at 56 in the image, region and term behind it.
    assert_eq!(monitor.as_bytes()[56..59], [2, 3, 2]);
}

#[test]
fn no_condition_decides() {
    let mut monitor = LiveMonitor::open(&CHART_U).unwrap();
    let dropped = monitor.feed_message_why(1, 0, 2, 5);
    assert_eq!(dropped, Ok((Answer::Dropped, None)));
    let entered = monitor.feed_message_why(0, 1, 1, 6);
    assert_eq!(entered, Ok((Answer::Entered, None)));
    let broken = Answer::Broken {
        record: 3,
        reason: Reason::NoReadyRegion,
    };
    for time in [7, 0] {
        let said = monitor.feed_message_why(0, 1, 1, time);
        assert_eq!(said, Ok((broken, None)));
    }
}

#[test]
fn a_message_that_opens_the_next_round() {
    // Go, then data, then an answer in the main chart. The second go is out of order: it drops
    // the round and opens the next.
    let go = [0x20, 0, 1, 0, 1];
    let waits = [0x30, 0, 3, 0, 0, 0, 3];
    let rest = [0x20, 0, 1, 0, 2, 0x50, 0x20, 1, 0, 0, 3, 0x7F];
    let chart = [&[0x10, 2, 1], &go[..], &rest].concat();
    let mut monitor = LiveMonitor::open(&chart).unwrap();
    for (label, answer) in [(1, Answer::Moved), (1, Answer::Moved), (2, Answer::Entered)] {
        let said = monitor.feed_message_why(0, 1, label, 7);
        assert_eq!(said, Ok((answer, None)));
    }
    assert_eq!(monitor.standing().to_string(), "2 0 1 3 0 0 0 0");
    // With clock 0 at least 3 in go's region, the next round is dropped too, by this term: its
    // clock starts at the second go.
    let chart = [&[0x10, 2, 1], &go[..], &waits, &rest].concat();
    let mut monitor = LiveMonitor::open(&chart).unwrap();
    assert_eq!(monitor.feed_message(0, 1, 1, 7), Ok(Answer::Moved));
    let said = monitor.feed_message_why(0, 1, 1, 17);
    let cause = Cause { region: 1, term: 1 };
    assert_eq!(said, Ok((Answer::Dropped, Some(cause))));
    assert_eq!(monitor.standing().to_string(), "0 0 2 2 0 0 0 0");
    // A message that cannot open a round: dropped, by no condition.
    assert_eq!(monitor.feed_message(0, 1, 1, 20), Ok(Answer::Moved));
    let said = monitor.feed_message_why(1, 0, 3, 20);
    assert_eq!(said, Ok((Answer::Dropped, None)));
    assert_eq!(monitor.standing().to_string(), "0 0 3 4 0 0 0 0");
}

#[test]
fn bytes_that_hold_no_monitor() {
    let no = |bytes: &[u8]| LiveMonitor::from_bytes(bytes.to_vec()).err();
    let good = LiveMonitor::open(&CHART_U).unwrap().into_bytes();
    assert_eq!(no(&good), None);
    assert_eq!(no(&good[..104]), Some(FeedRefusal::NoLiveMonitor));
    assert_eq!(no(&[]), Some(FeedRefusal::NoLiveMonitor));
    let mut unfit = good.clone();
    unfit[0] = 1;
    assert_eq!(no(&unfit), Some(FeedRefusal::Unfit));
    // A region and a term without a break.
    let mut unfit = good.clone();
    unfit[57..59].copy_from_slice(&[2, 1]);
    assert_eq!(no(&unfit), Some(FeedRefusal::Unfit));
    // The count of records stands at 40 in the image, that of dropped rounds at 48: they may be
    // twice as many.
    let mut counts = good.clone();
    counts[43] = 1;
    counts[51] = 2;
    assert_eq!(no(&counts), None);
    counts[51] = 3;
    assert_eq!(no(&counts), Some(FeedRefusal::Unfit));
    let mut full = good;
    full[40..44].copy_from_slice(&1_000_000u32.to_be_bytes());
    let mut monitor = LiveMonitor::from_bytes(full).unwrap();
    assert_eq!(monitor.feed_time(0), Err(FeedRefusal::Full));
    assert_eq!(monitor.standing().records, 1_000_000);
}

/// Undo 16 ticks before the counter returns to 0, references 16 ticks and headings so many behind
/// it, all with raw stamps.
fn across_the_wrap(headings: u8) -> [u8; 27] {
    [
        3, 0, 1, 0, 1, 0xFF, 0xFF, 0xFF, 0xF0, //
        3, 2, 3, 0, 3, 0, 0, 0, 0, //
        3, 1, 0, 0, 2, 0, 0, 0, headings,
    ]
}

#[test]
fn raw_logs_over_chart_u() {
    let said = |log: &[u8]| match lsc::judge(&CHART_U, log) {
        Ok(verdict) => verdict.to_string(),
        Err(refusal) => refusal.to_string(),
    };
    // Clock 0 is 40 at 24 behind the wrap, 41 at 25.
    assert_eq!(said(&across_the_wrap(24)), "0 1 0 3 0 0 0 0");
    assert_eq!(said(&across_the_wrap(25)), "3 0 0 3 3 2 2 1");
    // Moments 0, 2^31 - 1, 2^32 - 2 and 2^32 - 1; the next would be 2^32.
    let far = [
        4, 0, 0, 0, 9, 4, 0x80, 0, 0, 8, 4, 0, 0, 0, 7, 4, 0, 0, 0, 8,
    ];
    assert_eq!(said(&far), "0 0 0 4 0 0 0 0");
    let after = |record: &[u8]| said(&[&far, record].concat());
    assert_eq!(after(&[4, 0, 0, 0, 9]), "refused log 24 at 20");
    assert_eq!(after(&[4, 0x80, 0, 0, 8]), "refused log 22 at 20");
    assert_eq!(after(&[2, 0, 0, 0, 9]), "refused log 32 at 20");
    assert_eq!(after(&[2, 0, 0, 0]), "refused log 30 at 20");
    assert_eq!(after(&[5, 0, 0, 0, 9]), "refused log 31 at 20");
    let plain = [2, 0, 0, 0, 9, 4, 0, 0, 0, 9];
    assert_eq!(said(&plain), "refused log 32 at 5");
    let input = input_of(&CHART_U, &plain);
    assert_eq!(lsc::print(&input), "refused log 32 at 5\n");
}

/// What the safe call says of a log over chart U, as text.
fn yes_or_no(log: &[u8]) -> String {
    match lsc::breaks(&CHART_U, log) {
        Ok(broken) => if broken { "yes" } else { "no" }.to_string(),
        Err(refusal) => refusal.to_string(),
    }
}

#[test]
fn yes_or_no_over_chart_u() {
    for (records, expected) in OVER_CHART_U {
        let expected = match expected.split_once(' ') {
            Some(("refused", _)) => expected,
            Some(("3", _)) => "yes",
            _ => "no",
        };
        assert_eq!(yes_or_no(&write_log(records)), expected);
    }
    assert_eq!(yes_or_no(&across_the_wrap(24)), "no");
    assert_eq!(yes_or_no(&across_the_wrap(25)), "yes");
}

#[test]
fn a_fault_before_a_break_and_one_behind_it() {
    let undo = [1, 0, 1, 0, 1, 0, 0, 0, 9];
    for (fault, number) in [
        (&[5][..], 31),
        (&[2, 0, 0, 0], 30),
        (&[4, 0, 0, 0, 9], 32),
        (&[2, 0, 0, 0, 8], 22),
    ] {
        let before = [&undo, fault].concat();
        let refused = format!("refused log {number} at 9");
        assert_eq!(yes_or_no(&before), refused);
        let behind = [&undo, &undo, fault].concat();
        assert_eq!(yes_or_no(&behind), "yes");
        let judged = lsc::judge(&CHART_U, &behind).unwrap_err().to_string();
        assert_eq!(judged, format!("refused log {number} at 18"));
    }
    // Undo at the last moment, 2^32 - 1, of a raw log; the next record is a tick later.
    let far = [
        4, 0, 0, 0, 9, 4, 0x80, 0, 0, 8, 4, 0, 0, 0, 7, 3, 0, 1, 0, 1, 0, 0, 0, 8,
    ];
    let late = [4, 0, 0, 0, 9];
    let before = [&far[..], &late].concat();
    assert_eq!(yes_or_no(&before), "refused log 24 at 24");
    let behind = [&far[..], &far[15..], &late].concat();
    assert_eq!(yes_or_no(&behind), "yes");
}

#[test]
fn yes_or_no_by_charts_that_are_refused() {
    let refused = |number, offset| {
        Err(Refusal {
            part: Part::Chart,
            number,
            offset,
        })
    };
    assert_eq!(lsc::breaks(&[], &[9]), refused(1, 0));
    assert_eq!(lsc::breaks(&CHART_U[..37], &[]), refused(1, 37));
    let plain = [0x10, 2, 1, 0x21, 0, 1, 0x40, 1, 0x50, 0x7F];
    assert_eq!(lsc::breaks(&plain, &[]), refused(9, 3));
}

#[test]
fn yes_or_no_in_places_of_the_caller() {
    let undo = [1, 0, 1, 0, 1, 0, 0, 0, 9];
    let twice = undo.repeat(2);
    for room in 0..3 {
        let mut out = vec![7; room];
        assert_eq!(lsc::call::breaks(&CHART_U, &twice, &mut out), 12);
        assert_eq!(lsc::call::breaks(&[], &[0], &mut out), 12);
        assert_eq!(out, vec![7; room]);
    }
    let mut out = [7; 5];
    assert_eq!(lsc::call::breaks(&CHART_U, &twice, &mut out), 0);
    assert_eq!(out, [1, 0, 0, 7, 7]);
    assert_eq!(lsc::call::breaks(&CHART_U, &undo, &mut out), 0);
    assert_eq!(out, [0, 0, 0, 7, 7]);
    assert_eq!(lsc::call::breaks(&CHART_U, &twice[..17], &mut out), 30);
    assert_eq!(out, [2, 30, 9, 7, 7]);
    assert_eq!(lsc::call::breaks(&[0x10, 1, 0], &undo, &mut out), 4);
    assert_eq!(out, [1, 4, 0, 7, 7]);
}

#[test]
fn one_record_after_another() {
    let log = [
        1, 7, 8, 0x12, 0x34, 0, 0, 1, 0, 2, 0xFF, 0xFF, 0xFF, 0xFF, //
        3, 200, 201, 0xFF, 0xFE, 0x80, 0, 0, 1, 4, 0, 0, 0, 5, 3, 9,
    ];
    let (source, destination, label, time) = (7, 8, 0x1234, 256);
    let plain = LogRecord::Message {
        source,
        destination,
        label,
        time,
    };
    let raw = LogRecord::RawMessage {
        source: 200,
        destination: 201,
        label: 0xFFFE,
        stamp: Stamp(0x8000_0001),
    };
    let latest = LogRecord::Time { time: u32::MAX };
    let stamp = LogRecord::RawTime { stamp: Stamp(5) };
    assert_eq!(lsc::read_record(&log, 0), Ok(Some((plain, 9))));
    assert_eq!(lsc::read_record(&log, 9), Ok(Some((latest, 14))));
    assert_eq!(lsc::read_record(&log, 14), Ok(Some((raw, 23))));
    assert_eq!(lsc::read_record(&log, 23), Ok(Some((stamp, 28))));
    let cut = Err(RecordRefusal::CutShort);
    assert_eq!(lsc::read_record(&log, 28), cut);
    let unknown = Err(RecordRefusal::UnknownByte);
    assert_eq!(lsc::read_record(&log, 29), unknown);
    for place in [30, 31, usize::MAX] {
        assert_eq!(lsc::read_record(&log, place), Ok(None));
    }
    assert_eq!(lsc::read_record(&[], 0), Ok(None));
    let text = RecordRefusal::CutShort.to_string();
    assert_eq!(text, "refused 30: the record is cut short");
}

#[test]
fn a_record_in_places_of_the_caller() {
    let log = [4, 0, 0, 0, 5];
    for room in 0..6 {
        let mut out = vec![7; room];
        assert_eq!(lsc::call::read_record(&log, 0, &mut out), 12);
        assert_eq!(out, vec![7; room]);
    }
    let mut out = [7; 8];
    assert_eq!(lsc::call::read_record(&log, 0, &mut out), 0);
    assert_eq!(out, [4, 0, 0, 0, 5, 5, 7, 7]);
    assert_eq!(lsc::call::read_record(&log, usize::MAX, &mut out), 0);
    assert_eq!(out, [0, 0, 0, 0, 0, u64::MAX, 7, 7]);
    assert_eq!(lsc::call::read_record(&log, 1, &mut out), 31);
    assert_eq!(out, [0, 0, 0, 0, 0, u64::MAX, 7, 7]);
}

/// What the safe call shows at a moment, as numbers, 0 for a plain region.
fn shown(monitor: &LiveMonitor, time: u32) -> Result<Vec<u8>, FeedRefusal> {
    let entries = monitor.preview(time)?;
    let number = |entry: Option<Foreseen>| entry.map_or(0, Foreseen::number);
    Ok(entries.into_iter().map(number).collect())
}

#[test]
fn previews_over_chart_u() {
    let mut monitor = LiveMonitor::open(&CHART_U).unwrap();
    assert_eq!(shown(&monitor, 0), Ok(vec![4, 3, 3]));
    monitor.feed_message(0, 1, 1, 100).unwrap();
    let before = monitor.clone();
    assert_eq!(shown(&monitor, 120), Ok(vec![1, 5, 5]));
    assert_eq!(shown(&monitor, 150), Ok(vec![1, 1, 1]));
    assert_eq!(shown(&monitor, 99), Err(FeedRefusal::TimeFalls));
    assert_eq!(monitor, before);
    monitor.feed_message(2, 3, 3, 120).unwrap();
    let entries = [Foreseen::Broken, Foreseen::Kept, Foreseen::Broken];
    assert_eq!(monitor.preview(140), Ok(entries.map(Some).to_vec()));
    assert_eq!(
        entries.map(|entry| entry.to_string()).join(" "),
        "broken kept broken"
    );
    // After a break every moment is taken.
    monitor.feed_message(2, 3, 3, 130).unwrap();
    assert_eq!(shown(&monitor, 0), Ok(vec![1, 1, 1]));
}

#[test]
fn previews_of_plain_regions_and_second_offers() {
    // Go with clock 0 at most 9, and data; then, in the main chart, a plain region with clock 0 at
    // least 3, hot, and an answer.
    let chart = [
        0x10, 2, 1, 0x20, 0, 1, 0, 1, 0x30, 0, 1, 0, 0, 0, 9, 0x20, 0, 1, 0, 2, 0x50, 0x21, 0, 1,
        0x30, 0, 3, 0, 0, 0, 3, 0x32, 0x20, 1, 0, 0, 3, 0x7F,
    ];
    let mut monitor = LiveMonitor::open(&chart).unwrap();
    assert_eq!(shown(&monitor, 9), Ok(vec![5, 3, 0, 3]));
    assert_eq!(shown(&monitor, 10), Ok(vec![3, 3, 0, 3]));
    monitor.feed_message(0, 1, 1, 2).unwrap();
    // Go would start the next round; data would settle the plain region, or break by it.
    assert_eq!(shown(&monitor, 2), Ok(vec![5, 1, 0, 3]));
    assert_eq!(shown(&monitor, 99), Ok(vec![5, 4, 0, 3]));
    monitor.feed_message(0, 1, 2, 3).unwrap();
    assert_eq!(shown(&monitor, 3), Ok(vec![1, 1, 0, 2]));
}

#[test]
fn previews_after_a_million_records() {
    let with_records = |monitor: &LiveMonitor, records: u32| {
        let mut bytes = monitor.as_bytes().to_vec();
        bytes[40..44].copy_from_slice(&records.to_be_bytes());
        LiveMonitor::from_bytes(bytes).unwrap()
    };
    let mut monitor = LiveMonitor::open(&CHART_U).unwrap();
    monitor.feed_message(0, 1, 1, 100).unwrap();
    let last = with_records(&monitor, 999_999);
    assert_eq!(shown(&last, 100), Ok(vec![1, 5, 5]));
    let full = with_records(&monitor, 1_000_000);
    assert_eq!(shown(&full, 100), Err(FeedRefusal::Full));
    assert_eq!(shown(&full, 99), Err(FeedRefusal::TimeFalls));
    monitor.feed_message(0, 1, 1, 100).unwrap();
    let broken = with_records(&monitor, 1_000_000);
    for time in [0, 100, u32::MAX] {
        assert_eq!(shown(&broken, time), Ok(vec![1, 1, 1]));
    }
}

#[test]
fn a_preview_in_bytes_of_the_caller() {
    let mut monitor = LiveMonitor::open(&CHART_U).unwrap();
    monitor.feed_message(0, 1, 1, 100).unwrap();
    let live = monitor.into_bytes();
    // The number, the count of regions, and the bytes lent.
    let said = |live: &[u8], time, room: usize| {
        let (mut out, mut regions) = (vec![7; room], 77);
        let number = lsc::call::preview(live, time, &mut out, &mut regions);
        (number, regions, out)
    };
    assert_eq!(said(&live, 120, 5), (0, 3, vec![1, 5, 5, 7, 7]));
    assert_eq!(said(&live, 120, 3), (0, 3, vec![1, 5, 5]));
    assert_eq!(said(&live, 99, 3), (22, 0, vec![7; 3]));
    for room in 0..3 {
        for time in [99, 120] {
            assert_eq!(said(&live, time, room), (12, 3, vec![7; room]));
        }
    }
    let mut unfit = live.clone();
    unfit[0] = 1;
    for room in 0..5 {
        assert_eq!(said(&unfit, 0, room), (21, 0, vec![7; room]));
        assert_eq!(said(&live[..104], 0, room), (20, 0, vec![7; room]));
        assert_eq!(said(&[], 0, room), (20, 0, vec![7; room]));
    }
}

/// A prechart of one message; in the main chart a message with resets, a hot mark and two terms, in
/// an order of their own.
const OUT_OF_ORDER: [u8; 32] = [
    0x10, 2, 2, 0x20, 0, 1, 0, 1, 0x50, 0x20, 1, 0, 0, 2, // the regions' messages
    0x40, 3, 0x31, 1, 0, 4, 0xFF, 0xFF, 0xFF, 0xFE, 0x32, 0x30, 0, 1, 0, 0, 0, 5,
];

/// What it is saved as, but for the end.
const IN_ORDER: [u8; 32] = [
    0x10, 2, 2, 0x20, 0, 1, 0, 1, 0x50, 0x20, 1, 0, 0, 2, // the same
    0x31, 1, 0, 4, 0xFF, 0xFF, 0xFF, 0xFE, 0x30, 0, 1, 0, 0, 0, 5, 0x32, 0x40, 3,
];

/// These bytes and the end.
fn ended(bytes: &[u8]) -> Vec<u8> {
    [bytes, &[0x7F]].concat()
}

#[test]
fn charts_are_saved() {
    assert_eq!(lsc::saved(&CHART_U), Ok(CHART_U.to_vec()));
    let empty_prechart = [0x10, 2, 0, 0x50, 0x20, 0, 1, 0, 1, 0x7F];
    assert_eq!(lsc::saved(&empty_prechart), Ok(empty_prechart.to_vec()));
    let (bytes, expected) = (ended(&OUT_OF_ORDER), ended(&IN_ORDER));
    assert_eq!(lsc::saved(&bytes).as_ref(), Ok(&expected));
    assert_eq!(lsc::saved(&expected).as_ref(), Ok(&expected));
    // Both are the same chart to every log.
    let log = [1, 0, 1, 0, 1, 0, 0, 0, 5, 1, 1, 0, 0, 2, 0, 0, 0, 6];
    let verdict = lsc::judge(&bytes, &log).unwrap();
    assert_eq!(verdict.to_string(), "3 0 0 2 2 2 2 2");
    assert_eq!(lsc::judge(&expected, &log), Ok(verdict));
}

#[test]
fn charts_that_cannot_be_saved() {
    let twice = [&OUT_OF_ORDER[..], &[0x40, 1, 0x7F]].concat();
    for (bytes, number, offset) in [
        (&[][..], 1, 0),
        (&[0x10, 1, 0], 4, 0),
        (&CHART_U[..37], 1, 37),
        (&ended(&CHART_U), 11, 38),
        (&twice, 3, 32),
    ] {
        let refusal = Refusal {
            part: Part::Chart,
            number,
            offset,
        };
        assert_eq!(lsc::saved(bytes), Err(refusal));
        let refused = lsc::write(bytes, &mut []).unwrap_err();
        assert_eq!(refused, WriteRefusal::Chart(refusal));
        assert_eq!(refused.number(), number);
        assert_eq!(refused.to_string(), refusal.to_string());
    }
}

#[test]
fn a_saved_chart_in_bytes_of_the_caller() {
    for room in 0..38 {
        let mut out = vec![7; room];
        let refused = lsc::write(&CHART_U, &mut out).unwrap_err();
        assert_eq!(refused, WriteRefusal::TooShort { needed: 38 });
        assert_eq!((refused.number(), out), (12, vec![7; room]));
    }
    let text = WriteRefusal::TooShort { needed: 38 }.to_string();
    assert_eq!(
        text,
        "refused 12: the buffer is too short, 38 bytes are needed"
    );
    for more in [0, 1, 9] {
        let mut out = vec![7; 38 + more];
        assert_eq!(lsc::write(&CHART_U, &mut out), Ok(38));
        assert_eq!(out, [&CHART_U[..], &vec![7; more]].concat());
    }
    // The number and what is told beside it; a refusal leaves the bytes.
    let said = |chart: &[u8], room: usize| {
        let (mut out, mut at) = (vec![7; room], 77);
        let number = lsc::call::write(chart, &mut out, &mut at);
        assert!(number == 0 || out == vec![7; room]);
        (number, at)
    };
    assert_eq!(said(&CHART_U, 38), (0, 38));
    assert_eq!(said(&CHART_U, 37), (12, 38));
    assert_eq!(said(&[], 37), (1, 0));
    assert_eq!(said(&CHART_U[..20], 0), (1, 16));
}

#[test]
fn the_longest_chart_is_saved() {
    let bytes = longest();
    assert_eq!(bytes.len(), lsc::call::CHART_ROOM);
    assert_eq!(lsc::saved(&bytes).as_ref(), Ok(&bytes));
    let mut short = [7; lsc::call::CHART_ROOM - 1];
    let refused = WriteRefusal::TooShort { needed: 1_317 };
    assert_eq!(lsc::write(&bytes, &mut short), Err(refused));
    assert_eq!(short, [7; 1_316]);
}

#[test]
fn logs_over_a_chart_that_may_rest() {
    for (records, expected) in OVER_PAUSED {
        let log = write_log(records);
        let verdict = lsc::judge(&PAUSED, &log).unwrap();
        assert_eq!(verdict.to_string(), expected);
        let resting = expected.starts_with('4');
        assert_eq!(verdict.standing == Standing::Resting, resting);
        let text = lsc::print(&input_of(&PAUSED, &log));
        assert_eq!(text.lines().nth(1), Some(expected));
        let broken = verdict.standing == Standing::Broken;
        assert_eq!(lsc::breaks(&PAUSED, &log), Ok(broken));
    }
}

#[test]
fn a_live_monitor_that_rests() {
    let mut monitor = LiveMonitor::open(&PAUSED).unwrap();
    let mut stands = |source, destination, label, time| {
        let answer = monitor.feed_message(source, destination, label, time);
        let standing = monitor.standing().standing;
        (answer, standing, standing.number())
    };
    // Undo, headings, the list locked and released, the user's word, references.
    let moved = Ok(Answer::Moved);
    let entered = Ok(Answer::Entered);
    assert_eq!(stands(0, 1, 1, 100), (entered, Standing::Owed, 2));
    assert_eq!(stands(1, 0, 2, 120), (moved, Standing::Owed, 2));
    assert_eq!(stands(2, 3, 3, 125), (moved, Standing::Owed, 2));
    assert_eq!(stands(2, 3, 4, 130), (moved, Standing::Resting, 4));
    // A refused record, and a message of no region, leave it.
    let falls = Err(FeedRefusal::TimeFalls);
    assert_eq!(stands(0, 1, 5, 129), (falls, Standing::Resting, 4));
    let quiet = Ok(Answer::Quiet);
    assert_eq!(stands(3, 2, 3, 80_000), (quiet, Standing::Resting, 4));
    assert_eq!(stands(0, 1, 5, 90_000), (moved, Standing::Owed, 2));
    assert_eq!(
        stands(2, 0, 6, 90_040),
        (Ok(Answer::Kept), Standing::Open, 0)
    );
    assert_eq!(monitor.standing().to_string(), "0 1 0 7 0 0 0 0");
}

/// Undo, a mark in some place, and headings.
fn marked(before: &[u8], after: &[u8]) -> Vec<u8> {
    let undo = [0x10, 2, 0, 0x20, 0, 1, 0, 1];
    let headings = [0x20, 1, 0, 0, 2];
    [&undo, before, &[0x50], &headings, after, &[0x7F]].concat()
}

#[test]
fn marks_that_are_refused() {
    for (chart, number, offset) in [
        (marked(&[0x33], &[]), 13, 8),
        (marked(&[0x50, 0x33], &[]), 3, 9),
        (marked(&[], &[0x33, 0x33]), 3, 15),
        (vec![0x10, 2, 0, 0x33], 3, 3),
        (vec![0x33], 3, 0),
    ] {
        let refusal = Refusal {
            part: Part::Chart,
            number,
            offset,
        };
        assert_eq!(lsc::judge(&chart, &[]), Err(refusal));
        assert_eq!(lsc::breaks(&chart, &[]), Err(refusal));
        assert_eq!(lsc::saved(&chart), Err(refusal));
        let refused = lsc::write(&chart, &mut []);
        assert_eq!(refused, Err(WriteRefusal::Chart(refusal)));
        assert_eq!(LiveMonitor::open(&chart).err(), Some(refusal));
        let text = lsc::print(&input_of(&chart, &[]));
        assert_eq!(text, format!("refused chart {number} at {offset}\n"));
    }
}

#[test]
fn a_mark_is_saved_last() {
    assert_eq!(lsc::saved(&PAUSED), Ok(PAUSED.to_vec()));
    let chart = marked(&[], &[0x33]);
    assert_eq!(lsc::saved(&chart).as_ref(), Ok(&chart));
    assert_ne!(lsc::saved(&marked(&[], &[])), Ok(chart));
    // The mark, the resets, the hot mark and the two terms.
    let [resets, middle, term] = [14..16, 16..25, 25..32].map(|part| &OUT_OF_ORDER[part]);
    let backwards = [&OUT_OF_ORDER[..14], &[0x33], resets, middle, term].concat();
    let expected = [&IN_ORDER[..], &[0x33]].concat();
    assert_eq!(lsc::saved(&ended(&backwards)), Ok(ended(&expected)));
}

/// Chart U's monitor and a log's kind after the bytes of a log, and what feeding them came to.
fn fed_over_chart_u(log: &[u8]) -> (LiveMonitor, LogKind, FedLog) {
    let mut monitor = LiveMonitor::open(&CHART_U).unwrap();
    let mut kind = LogKind::default();
    let fed = monitor.feed_log(&mut kind, log);
    (monitor, kind, fed)
}

#[test]
fn bytes_of_a_log_are_fed() {
    for (records, expected) in OVER_CHART_U {
        let (monitor, kind, fed) = fed_over_chart_u(&write_log(records));
        if let Some(refusal) = expected.strip_prefix("refused log 22 at ") {
            assert_eq!(fed.stop, Stop::Refused(LogRefusal::TimeFalls));
            assert_eq!(fed.place.to_string(), refusal);
            continue;
        }
        assert_eq!(monitor.standing().to_string(), expected);
        let broken = expected.starts_with('3');
        assert_eq!(fed.stop, if broken { Stop::Broken } else { Stop::End });
        assert_eq!((fed.taken, fed.place), (records.len(), 9 * records.len()));
        let none = records.is_empty();
        assert_eq!(kind == LogKind::NoRecord, none);
        assert_eq!(fed.last.is_none(), none);
    }
    // Dropped, entered, quiet, moved, kept; then entered and broken, and a byte that is not read.
    let log = [
        1, 1, 0, 0, 2, 0, 0, 0, 1, 1, 0, 1, 0, 1, 0, 0, 0, 2, 2, 0, 0, 0, 3, 1, 2, 3, 0, 3, 0, 0,
        0, 4, 1, 1, 0, 0, 2, 0, 0, 0, 5, 1, 0, 1, 0, 1, 0, 0, 0, 6, 1, 0, 1, 0, 1, 0, 0, 0, 7, 9,
    ];
    let (monitor, kind, fed) = fed_over_chart_u(&log);
    let counts = Counts {
        broken: 1,
        kept: 1,
        dropped: 1,
        entered: 2,
        moved: 1,
        quiet: 1,
    };
    let last = Answer::Broken {
        record: 7,
        reason: Reason::NoReadyRegion,
    };
    let expected = FedLog {
        taken: 7,
        place: 59,
        last: Some(last),
        counts,
        stop: Stop::Broken,
    };
    assert_eq!((kind, fed), (LogKind::Plain, expected));
    assert_eq!(monitor.standing().to_string(), "3 1 1 7 7 1 0 0");
    // Once more: nothing is taken.
    let (mut again, mut kind) = (monitor.clone(), LogKind::Plain);
    let expected = FedLog {
        taken: 0,
        place: 0,
        last: None,
        counts: Counts::default(),
        stop: Stop::Broken,
    };
    assert_eq!(again.feed_log(&mut kind, &log), expected);
    assert_eq!((again, kind), (monitor, LogKind::Plain));
}

#[test]
fn a_log_is_followed_in_pieces() {
    let raw = across_the_wrap(25);
    let whole = fed_over_chart_u(&raw);
    let last = Stamp(25);
    assert_eq!(whole.1, LogKind::Raw { last });
    assert_eq!(whole.0.standing().to_string(), "3 0 0 3 3 2 2 1");
    for size in 1..=raw.len() {
        let mut monitor = LiveMonitor::open(&CHART_U).unwrap();
        let (mut kind, mut waiting) = (LogKind::default(), Vec::new());
        let (mut taken, mut moved) = (0, 0);
        for piece in raw.chunks(size) {
            waiting.extend(piece);
            let fed = monitor.feed_log(&mut kind, &waiting);
            waiting.drain(..fed.place);
            taken += fed.taken;
            moved += fed.counts.moved;
            let stop = match (taken, waiting.len()) {
                (3, _) => Stop::Broken,
                (_, 0) => Stop::End,
                _ => Stop::MoreToCome,
            };
            assert_eq!(fed.stop, stop);
            // Stored and taken up again.
            kind = LogKind::from_bytes(kind.to_bytes()).unwrap();
            monitor = LiveMonitor::from_bytes(monitor.into_bytes()).unwrap();
        }
        assert_eq!((&monitor, kind), (&whole.0, whole.1));
        assert_eq!((taken, moved), (3, 1));
    }
}

#[test]
fn records_of_a_log_that_are_refused() {
    let undo = [1, 0, 1, 0, 1, 0, 0, 0, 9];
    for (behind, refusal, text) in [
        (
            &[5][..],
            LogRefusal::UnknownByte,
            "refused 31: no record starts with this byte",
        ),
        (
            &[4, 0, 0, 0, 9],
            LogRefusal::OtherKind,
            "refused 32: raw and plain records in one log",
        ),
        (
            &[2, 0, 0, 0, 8],
            LogRefusal::TimeFalls,
            "refused 22: the time falls",
        ),
    ] {
        let (monitor, kind, fed) = fed_over_chart_u(&[&undo, behind].concat());
        assert_eq!((fed.taken, fed.place), (1, 9));
        assert_eq!(fed.stop, Stop::Refused(refusal));
        assert_eq!(fed.stop.number(), refusal.number());
        assert_eq!(refusal.to_string(), text);
        // As if the bytes ended before.
        let (before, plain, ended) = fed_over_chart_u(&undo);
        assert_eq!((monitor, kind), (before, plain));
        assert_eq!((ended.stop, ended.last), (Stop::End, Some(Answer::Entered)));
    }
    let far = [
        4, 0, 0, 0, 9, 4, 0x80, 0, 0, 8, 4, 0, 0, 0, 7, 4, 0, 0, 0, 8, 4, 0, 0, 0, 9,
    ];
    let (_, kind, fed) = fed_over_chart_u(&far);
    assert_eq!((fed.taken, fed.place, fed.counts.quiet), (4, 20, 4));
    assert_eq!(fed.stop, Stop::Refused(LogRefusal::TooLate));
    assert_eq!(kind, LogKind::Raw { last: Stamp(8) });
    let mut full = LiveMonitor::open(&CHART_U).unwrap().into_bytes();
    full[40..44].copy_from_slice(&999_999u32.to_be_bytes());
    let mut monitor = LiveMonitor::from_bytes(full).unwrap();
    let fed = monitor.feed_log(&mut LogKind::default(), &[&undo[..], &undo].concat());
    assert_eq!((fed.taken, fed.stop.number()), (1, 23));
    assert_eq!(fed.stop, Stop::Refused(LogRefusal::Full));
    // A first raw record is at moment 0: this monitor is beyond it.
    let raw = [3, 0, 1, 0, 1, 0, 0, 0, 9];
    let (mut monitor, ..) = fed_over_chart_u(&undo);
    let mut kind = LogKind::NoRecord;
    let fed = monitor.feed_log(&mut kind, &raw);
    assert_eq!(fed.stop, Stop::Refused(LogRefusal::TimeFalls));
    assert_eq!(kind, LogKind::NoRecord);
}

#[test]
fn a_log_s_kind_as_bytes() {
    let last = Stamp(0x0102_03FF);
    for (kind, bytes) in [
        (LogKind::NoRecord, [0; 5]),
        (LogKind::Plain, [1, 0, 0, 0, 0]),
        (LogKind::Raw { last }, [2, 1, 2, 3, 255]),
    ] {
        assert_eq!(kind.to_bytes(), bytes);
        assert_eq!(LogKind::from_bytes(bytes), Some(kind));
    }
    assert_eq!(LogKind::from_bytes([1, 2, 3, 4, 5]), Some(LogKind::Plain));
    assert_eq!(LogKind::from_bytes([3, 0, 0, 0, 0]), None);
}

#[test]
fn a_log_fed_in_bytes_of_the_caller() {
    let live = LiveMonitor::open(&CHART_U).unwrap().into_bytes();
    let log = [3, 0, 1, 0, 1, 0, 0, 1, 2, 4, 0];
    // The number and the bytes and places lent.
    let said = |live: &[u8], kind: &[u8], places: usize| {
        let (mut live, mut kind, mut out) = (live.to_vec(), kind.to_vec(), vec![77; places]);
        let number = lsc::call::feed_log(&mut live, &mut kind, &log, &mut out);
        (number, live, kind, out)
    };
    let refused = |number, live: &[u8], kind: &[u8], places: usize| {
        let stays = (number, live.to_vec(), kind.to_vec(), vec![77; places]);
        assert_eq!(said(live, kind, places), stays);
    };
    for room in 0..5 {
        refused(12, &live, &vec![0; room], 9);
        refused(12, &[], &vec![3; room], 9);
    }
    for places in 0..9 {
        refused(12, &live, &[0; 5], places);
        refused(12, &[], &[3; 5], places);
    }
    refused(20, &live[..104], &[3; 5], 9);
    refused(21, &live, &[3; 5], 9);
    let mut unfit = live.clone();
    unfit[0] = 1;
    refused(21, &unfit, &[0; 5], 9);
    // Undo is taken, 30 is said, and what is beyond stays.
    let longer = [&live[..], &[7, 7]].concat();
    let (number, after, kind, out) = said(&longer, &[0, 9, 9, 9, 9, 6], 11);
    assert_eq!(number, 30);
    assert_eq!(out, [1, 9, 4, 0, 0, 0, 1, 0, 0, 77, 77]);
    assert_eq!(kind, [2, 0, 0, 1, 2, 6]);
    let mut monitor = LiveMonitor::open(&CHART_U).unwrap();
    monitor.feed_message(0, 1, 1, 0).unwrap();
    assert_eq!(after, [monitor.as_bytes(), &[7, 7]].concat());
}
