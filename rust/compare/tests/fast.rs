//! The fast judge, its yes or no, its preview and its feeding from a log's bytes on the examples of
//! the rules (X), on raw logs and at their limits.

use lsc_compare::asked::ASKED;
use lsc_compare::charts::{self, TWO_THEN_ONE};
use lsc_compare::coverage::Coverage;
use lsc_compare::fast;
use lsc_compare::followed::{self, FOLLOWED, STOPPED};
use lsc_compare::kinds::{FEED_LOG, KINDS};
use lsc_compare::outcomes::OUTCOMES;
use lsc_compare::previewed::{self, PREVIEWED};
use lsc_compare::random::{self, Rng, Size};
use lsc_reference::examples::{message, undo, CHART_U, OVER_CHART_U, OVER_PAUSED, PAUSED, WIDEST};
use lsc_reference::feed_log::feed_log;
use lsc_reference::live::{held, live_bytes};
use lsc_reference::log::{breaks, judge, write_log};
use lsc_reference::monitor;
use lsc_reference::preview::preview;
use lsc_reference::reader::read_chart;
use lsc_reference::value::*;

#[test]
fn chart_u() {
    let chart = read_chart(&CHART_U).unwrap();
    for (records, expected) in OVER_CHART_U {
        let log = write_log(records);
        let verdict = fast::judge(&chart, &log);
        assert_eq!(verdict, judge(&chart, &log), "{expected}");
        let answer = fast::breaks(&chart, &log);
        assert_eq!(answer, breaks(&chart, &log), "{expected}");
    }
}

#[test]
fn a_chart_that_may_rest() {
    let chart = read_chart(&PAUSED).unwrap();
    for (records, expected) in OVER_PAUSED {
        let verdict = fast::judge(&chart, &write_log(records)).unwrap();
        let words = verdict.numbers().map(|number| number.to_string());
        assert_eq!(words.join(" "), expected);
    }
}

#[test]
fn a_second_a_starts_a_round() {
    // X17, and the same with c at its end.
    let chart = read_chart(&TWO_THEN_ONE).unwrap();
    let [a, b, c] = [
        message(0, 1, 1, 1),
        message(0, 1, 2, 2),
        message(1, 0, 3, 3),
    ];
    let numbers = |records: &[RecordValue]| {
        let verdict = fast::judge(&chart, &write_log(records)).unwrap();
        verdict.numbers()
    };
    assert_eq!(numbers(&[a, a, b]), [2, 0, 1, 3, 0, 0, 0, 0]);
    assert_eq!(numbers(&[a, a, b, c]), [0, 1, 1, 4, 0, 0, 0, 0]);
}

#[test]
fn thirty_two_regions_are_fed() {
    let mut bytes = vec![0x10, 2, 0, 0x50];
    bytes.extend([0x20, 0, 1, 0, 1].repeat(32));
    bytes.push(0x7F);
    let chart = read_chart(&bytes).unwrap();
    let mut state = MonitorValue::ZERO;
    for _ in 0..32 {
        let expected = monitor::feed(&chart, state, undo(0));
        assert_eq!(fast::feed(&chart, state, undo(0)), expected);
        state = expected.1;
    }
    assert_eq!(state.kept, 1);
}

#[test]
fn the_widest_heading_is_given() {
    assert!(fast::is_given(&read_chart(&WIDEST).unwrap()));
}

#[test]
fn the_millionth_record_and_the_next() {
    let chart = read_chart(&CHART_U).unwrap();
    let full = RecordValue::Time(9).to_bytes().repeat(1_000_000);
    let after = [
        Vec::new(),
        RecordValue::Time(9).to_bytes(),
        RecordValue::Time(8).to_bytes(),
        vec![2, 0, 0, 0],
        vec![5],
        vec![4, 0, 0, 0, 9],
    ];
    let said = after.map(|after| {
        let log = [&full[..], &after].concat();
        let verdict = fast::judge(&chart, &log);
        assert_eq!(verdict, judge(&chart, &log));
        let answer = fast::breaks(&chart, &log);
        assert_eq!(answer, verdict.map(|_| false));
        verdict.map(|verdict| verdict.records)
    });
    let refused = [23, 22, 30, 31, 32].map(|number| Err((number, 5_000_000)));
    assert_eq!(said[0], Ok(1_000_000));
    assert_eq!(said[1..], refused);
}

#[test]
fn the_millionth_raw_record_and_the_next() {
    let chart = read_chart(&CHART_U).unwrap();
    // Moments 0 and, in the last three, 2^31 - 1, 2^32 - 2, 2^32 - 1.
    let mut full = [4, 0, 0, 0, 9].repeat(999_997);
    full.extend([4, 0x80, 0, 0, 8, 4, 0, 0, 0, 7, 4, 0, 0, 0, 8]);
    for (after, said) in [
        (&[][..], Ok(1_000_000)),
        (&[4, 0, 0, 0, 8], Err(23)),
        (&[4, 0, 0, 0, 9], Err(24)),
        (&[4, 0, 0, 0, 7], Err(22)),
        (&[4, 0x80, 0, 0, 8], Err(22)),
        (&[2, 0, 0, 0, 8], Err(32)),
        (&[3, 0, 0, 0, 8], Err(30)),
        (&[0, 0, 0, 0, 8], Err(31)),
    ] {
        let log = [&full[..], after].concat();
        let verdict = fast::judge(&chart, &log);
        assert_eq!(verdict, judge(&chart, &log));
        let answer = fast::breaks(&chart, &log);
        assert_eq!(answer, verdict.map(|_| false));
        let expected = said.map_err(|number| (number, 5_000_000));
        assert_eq!(verdict.map(|verdict| verdict.records), expected);
    }
}

#[test]
fn raw_logs() {
    let mut rng = Rng::new(12);
    let mut seen = Coverage::default();
    for _ in 0..20_000 {
        let size = random::some_size(&mut rng);
        let (_, chart) = random::chart(&mut rng, size);
        let log = random::hostile_log_bytes(&mut rng, &chart);
        let judged = judge(&chart, &log);
        assert_eq!(fast::judge(&chart, &log), judged, "{log:02X?}");
        seen.judged("fast", &log, &judged);
    }
    assert_eq!(seen.missing_logs("fast", &OUTCOMES), Vec::<String>::new());
}

#[test]
fn yes_or_no() {
    let mut rng = Rng::new(13);
    let mut seen = Coverage::default();
    for _ in 0..20_000 {
        let size = random::some_size(&mut rng);
        let (_, chart) = random::chart(&mut rng, size);
        let count = rng.below(24);
        let log = random::faulty_log_bytes(&mut rng, &chart, count);
        let answer = breaks(&chart, &log);
        assert_eq!(fast::breaks(&chart, &log), answer, "{log:02X?}");
        let judged = judge(&chart, &log);
        seen.answered("fast", &chart, &log, &answer, &judged);
    }
    assert_eq!(seen.missing_asked("fast", &ASKED), Vec::<String>::new());
    assert_eq!(fast::breaks(&ChartValue::ZERO, &[]), Err((20, 0)));
}

#[test]
fn yes_before_the_millionth_record_and_the_next() {
    let chart = read_chart(&CHART_U).unwrap();
    let times = RecordValue::Time(9).to_bytes().repeat(999_999);
    let undo = undo(9).to_bytes();
    let broken = [&undo[..], &undo, &times].concat();
    assert_eq!(fast::breaks(&chart, &broken), Ok(true));
    // Undo as record 1,000,000: the next would break.
    let owed = [&times[..], &undo].concat();
    assert_eq!(fast::breaks(&chart, &owed), Ok(false));
    let next = [&owed[..], &undo].concat();
    assert_eq!(fast::breaks(&chart, &next), Err((23, 5_000_004)));
}

/// Both previews of a chart and a monitor in a buffer of so many bytes, and the buffers.
fn check_preview(
    chart: &ChartValue,
    monitor: &MonitorValue,
    time: u32,
    room: usize,
) -> Result<Vec<u8>, u8> {
    let (mut out, mut wanted) = (vec![77; room], vec![77; room]);
    let said = fast::preview(chart, monitor, time, &mut out);
    let expected = preview(chart, monitor, time, &mut wanted);
    assert_eq!((said, &out), (expected, &wanted), "{chart:?} {monitor:?}");
    expected.map(|()| out)
}

#[test]
fn previews() {
    let mut rng = Rng::new(14);
    let mut seen = Coverage::default();
    for _ in 0..60_000 {
        let chart = match rng.below(10) {
            0 => random::chart_value(&mut rng),
            1..=5 => charts::some_small(&mut rng).1,
            _ => random::chart(&mut rng, Size::Small).1,
        };
        let monitor = random::monitor_value(&mut rng, &chart);
        let time = random::moment(&mut rng, &monitor);
        let count = usize::from(chart.count);
        let shown = check_preview(&chart, &monitor, time, count + 2);
        let shown = shown.as_deref().map_err(|number| *number);
        if let Some(room) = count.checked_sub(1) {
            let short = check_preview(&chart, &monitor, time, room);
            if short == Err(12) {
                for name in previewed::short_names(&chart, &monitor, room, shown) {
                    seen.previewed("fast", name);
                }
            }
        }
        let regions = shown.map(|bytes| &bytes[..count]);
        for name in previewed::names(&chart, &monitor, time, regions) {
            seen.previewed("fast", name);
        }
    }
    let missing = seen.missing_previewed("fast", &PREVIEWED);
    assert_eq!(missing, Vec::<String>::new());
}

/// Both feeds from a log's bytes in buffers of these lengths, and the buffers; the chart compiled
/// and as it came.
fn check_feed_log(live: &[u8], kind: &[u8], log: &[u8], places: usize) -> u8 {
    let before = (live.to_vec(), kind.to_vec(), vec![77; places]);
    let mut wanted = before.clone();
    let expected = feed_log(&mut wanted.0, &mut wanted.1, log, &mut wanted.2);
    for worth in [0, usize::MAX] {
        let mut said = before.clone();
        let number = fast::feed_log_by(worth, &mut said.0, &mut said.1, log, &mut said.2);
        let same = number == expected && said == wanted;
        assert!(same, "{live:02X?} {kind:02X?} {log:02X?}");
    }
    expected
}

#[test]
fn logs_that_are_followed() {
    let make = KINDS
        .iter()
        .find(|kind| kind.name == FEED_LOG)
        .unwrap()
        .make;
    let mut rng = Rng::new(15);
    let mut seen = Coverage::default();
    for _ in 0..60_000 {
        let (live, second) = make(&mut rng);
        let (kind, log) = second.split_first_chunk::<5>().unwrap();
        let number = check_feed_log(&live, kind, log, 9);
        check_feed_log(&live, &second[..second.len().min(7)], log, 11);
        assert_eq!(check_feed_log(&live, &kind[..4], log, 9), 12);
        assert_eq!(check_feed_log(&live, kind, log, 8), 12);
        if !matches!(number, 20 | 21) {
            let (_, chart, monitor) = held(&live).unwrap();
            for name in followed::names(&chart, &monitor, *kind, log) {
                seen.followed("fast", name);
            }
        }
    }
    let missing = seen.missing_followed("fast", &STOPPED);
    assert_eq!(missing, Vec::<String>::new());
    let missing = seen.missing_followed("fast", &FOLLOWED);
    assert_eq!(missing, Vec::<String>::new());
}

#[test]
fn a_long_log_that_is_followed() {
    for bytes in [CHART_U.to_vec(), charts::large()] {
        let chart = read_chart(&bytes).unwrap();
        let plain = charts::keeping_log(&chart, 3_000, 7);
        let broken = charts::breaking_log(&chart, &plain, 2_000);
        let raw = charts::raw_log(&plain, u32::MAX - 900);
        for (log, number) in [(plain, 0), (broken, 1), (raw, 0)] {
            let live = live_bytes(&bytes, &MonitorValue::ZERO);
            assert_eq!(check_feed_log(&live, &[0; 5], &log, 9), number);
            let (mut live, mut kind, mut out) = (live, [0; 5], [0; 9]);
            let said = fast::feed_log(&mut live, &mut kind, &log, &mut out);
            let (.., monitor) = held(&live).unwrap();
            let records = u64::from(monitor.records);
            assert_eq!((said, out[0]), (number, records));
        }
    }
}
