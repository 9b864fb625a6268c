//! The region and the term that decide: cases worked out by hand, by the steps and by the rows.

mod common;

use common::{broken, cause, clock, difference, fed, AT_LEAST, AT_MOST, EQUAL};
use lsc_reference::examples::{headings, message, undo, CHART_U};
use lsc_reference::log::verdict;
use lsc_reference::monitor::{feed, is_fit};
use lsc_reference::reader::read_chart;
use lsc_reference::value::*;

const LESS: u8 = 0;
const MORE: u8 = 4;

/// Region 1, prechart: go resets clock 1. Region 2, main: done, with four terms of both kinds.
/// Go at g and done at d: clock 0 is d, clock 1 is d - g.
fn four_terms(hot: bool) -> ChartValue {
    let mut bytes = vec![
        0x10, 2, 2, 0x20, 0, 1, 0, 1, 0x40, 2, 0x50, 0x20, 1, 0, 0, 2,
    ];
    bytes.extend(clock(0, AT_MOST, 30));
    bytes.extend(difference(0, 1, AT_MOST, 10));
    bytes.extend(clock(1, AT_LEAST, 5));
    bytes.extend(difference(1, 0, MORE, -8));
    if hot {
        bytes.push(0x32);
    }
    bytes.push(0x7F);
    read_chart(&bytes).unwrap()
}

/// Go and done at these times.
fn go_done(go: u32, done: u32) -> [RecordValue; 2] {
    [message(0, 1, 1, go), message(1, 0, 2, done)]
}

/// Times of go and done, and the first term that fails.
const FAILING: [(u32, u32, u8); 7] = [
    // Clock 0 is 31; the others hold.
    (7, 31, 1),
    // Clock 0 less clock 1 is 11; the fourth fails too, -11 > -8.
    (11, 16, 2),
    // Clock 1 is 4; the others hold.
    (7, 11, 3),
    // Clock 1 less clock 0 is -8; the others hold.
    (8, 13, 4),
    // The third and the fourth fail: 4, -9.
    (9, 13, 3),
    // The first, the second and the fourth fail: 40, 20, -20.
    (20, 40, 1),
    // All but the first fail: 30 holds, 26, 4, -26.
    (26, 30, 2),
];

#[test]
fn the_first_failing_term_of_a_hot_condition() {
    let chart = four_terms(true);
    for (go, done, term) in FAILING {
        let (answers, monitor) = fed(&chart, &go_done(go, done));
        let known = broken(2, Reason::ConditionFails, cause(2, term));
        assert_eq!(answers, [Answer::Entered, known], "{go} {done}");
        assert_eq!((monitor.fired, monitor.cause), (1, cause(2, term)));
        let numbers = verdict(&chart, &monitor).numbers();
        assert_eq!(numbers, [3, 0, 0, 2, 2, 2, 2, term.into()]);
        // It is final: the stored pair comes again, and nothing changes.
        for record in [RecordValue::Time(0), message(1, 0, 2, 50)] {
            assert_eq!(feed(&chart, monitor, record), (known, monitor));
        }
    }
    let (answers, _) = fed(&chart, &go_done(7, 12));
    assert_eq!(answers, [Answer::Entered, Answer::Kept]);
}

#[test]
fn the_first_failing_term_of_a_cold_condition_stands_in_the_answer_alone() {
    let chart = four_terms(false);
    for (go, done, term) in FAILING {
        let (answers, monitor) = fed(&chart, &go_done(go, done));
        let dropped = Answer::Dropped(cause(2, term));
        assert_eq!(answers, [Answer::Entered, dropped], "{go} {done}");
        assert_eq!(monitor.cause, Cause::NONE);
        let numbers = verdict(&chart, &monitor).numbers();
        assert_eq!(numbers, [0, 0, 1, 2, 0, 0, 0, 0]);
    }
}

#[test]
fn a_plain_region_that_fails_after_the_message_s() {
    // Region 1: clock 0 at most 9, hot, resets clock 0. Regions 2 and 3, plain on lines 0 and 1,
    // hot: clock 0 is 0 and clock 1 less clock 0 at most 5; clock 1 at most 3. Region 4 is last.
    let mut bytes = vec![0x10, 2, 2, 0x50, 0x20, 0, 1, 0, 1];
    bytes.extend(clock(0, AT_MOST, 9));
    bytes.extend([0x32, 0x40, 1, 0x21, 0, 1]);
    bytes.extend(clock(0, EQUAL, 0));
    bytes.extend(difference(1, 0, AT_MOST, 5));
    bytes.extend([0x32, 0x21, 0, 2]);
    bytes.extend(clock(1, AT_MOST, 3));
    bytes.extend([0x32, 0x20, 1, 0, 0, 2, 0x7F]);
    let chart = read_chart(&bytes).unwrap();
    for (time, fired, decides) in [
        // Region 1 holds and fires; in region 2 the second term is 6. Region 3 is not reached.
        (6, 0b1, cause(2, 2)),
        // Regions 1 and 2 hold and fire; in region 3 clock 1 is 5.
        (5, 0b11, cause(3, 1)),
        // Region 1 itself: 10. Regions 2 and 3 are not reached.
        (10, 0b0, cause(1, 1)),
    ] {
        let (answers, monitor) = fed(&chart, &[undo(time)]);
        let known = broken(1, Reason::ConditionFails, decides);
        assert_eq!(answers, [known], "{time}");
        assert_eq!((monitor.fired, monitor.cause), (fired, decides));
    }
    let (answers, _) = fed(&chart, &[undo(3)]);
    assert_eq!(answers, [Answer::Moved]);
}

/// Region 1, prechart, resets clock 0. Region 2, prechart: clock 0 at most 5, at least 2. Region
/// 3, main: clock 0 below 3. No condition is hot.
fn cold() -> ChartValue {
    let mut bytes = vec![0x10, 2, 1, 0x20, 0, 1, 0, 1, 0x40, 1, 0x20, 0, 1, 0, 2];
    bytes.extend(clock(0, AT_MOST, 5));
    bytes.extend(clock(0, AT_LEAST, 2));
    bytes.extend([0x50, 0x20, 1, 0, 0, 3]);
    bytes.extend(clock(0, LESS, 3));
    bytes.push(0x7F);
    read_chart(&bytes).unwrap()
}

#[test]
fn drops_in_both_halves() {
    let first = |time| message(0, 1, 1, time);
    let second = |time| message(0, 1, 2, time);
    let third = |time| message(1, 0, 3, time);
    let (answers, monitor) = fed(
        &cold(),
        &[
            // 1 is below 2.
            first(10),
            second(11),
            // Not ready: no condition decides.
            second(12),
            // 6 is above 5.
            first(20),
            second(26),
            // 3 is not below 3, in the main chart.
            first(30),
            second(33),
            third(33),
        ],
    );
    let expected = [
        Answer::Moved,
        Answer::Dropped(cause(2, 2)),
        Answer::Dropped(Cause::NONE),
        Answer::Moved,
        Answer::Dropped(cause(2, 1)),
        Answer::Moved,
        Answer::Entered,
        Answer::Dropped(cause(3, 1)),
    ];
    assert_eq!(answers, expected);
    let numbers = verdict(&cold(), &monitor).numbers();
    assert_eq!(numbers, [0, 0, 4, 8, 0, 0, 0, 0]);
    assert_eq!(monitor.cause, Cause::NONE);
}

#[test]
fn no_condition_decides_where_no_region_is_ready() {
    let chart = read_chart(&CHART_U).unwrap();
    let (answers, monitor) = fed(&chart, &[headings(5), undo(100), undo(110), headings(120)]);
    let known = broken(3, Reason::NoReadyRegion, Cause::NONE);
    let dropped = Answer::Dropped(Cause::NONE);
    assert_eq!(answers, [dropped, Answer::Entered, known, known]);
    let numbers = verdict(&chart, &monitor).numbers();
    assert_eq!(numbers, [3, 0, 1, 3, 3, 1, 0, 0]);
}

#[test]
fn other_answers_carry_zeros() {
    for answer in [
        Answer::Refused(22),
        Answer::Kept,
        Answer::Entered,
        Answer::Moved,
        Answer::Quiet,
        Answer::Dropped(Cause::NONE),
    ] {
        assert_eq!(answer.cause(), Cause::NONE);
    }
    assert_eq!(Answer::Dropped(cause(3, 1)).cause(), cause(3, 1));
    let known = broken(2, Reason::ConditionFails, cause(2, 4));
    assert_eq!(known.cause(), cause(2, 4));
}

/// Checks M10 for a break with a reason, or none, and a pair.
fn check_fit(chart: &ChartValue, reason: u8, pair: Cause, fit: bool) {
    let monitor = MonitorValue {
        records: 1,
        break_record: u32::from(reason != 0),
        reason,
        cause: pair,
        ..MonitorValue::ZERO
    };
    assert_eq!(is_fit(chart, &monitor), fit, "{reason} {pair:?}");
    let (answer, after) = feed(chart, monitor, RecordValue::Time(1));
    if !fit {
        assert_eq!((answer, after), (Answer::Refused(21), monitor));
    } else if reason != 0 {
        let known = monitor.broken().unwrap();
        assert_eq!((answer, after), (Answer::Broken(known), monitor));
        assert_eq!(known.cause, pair);
    }
}

#[test]
fn pairs_of_a_fit_monitor() {
    // Region 1 has no term, region 2 two, region 3 one, all cold, none fired, 2 in the prechart:
    // with reason 2 only region and term are looked at.
    let chart = cold();
    for region in 0..=255 {
        for term in [0, 1, 2, 3, 4, 5, 255] {
            let fit = matches!((region, term), (2, 1) | (2, 2) | (3, 1));
            check_fit(&chart, 2, cause(region, term), fit);
            let none = (region, term) == (0, 0);
            check_fit(&chart, 1, cause(region, term), none);
            check_fit(&chart, 0, cause(region, term), none);
        }
    }
    // All four terms, and none beyond.
    for term in 0..=255 {
        check_fit(
            &four_terms(true),
            2,
            cause(2, term),
            (1..=4).contains(&term),
        );
        check_fit(&four_terms(true), 2, cause(1, term), false);
    }
}

#[test]
fn the_last_of_32_regions() {
    let mut bytes = vec![0x10, 2, 1, 0x50];
    bytes.extend([0x20, 0, 1, 0, 1].repeat(32));
    bytes.extend(clock(0, AT_MOST, 1));
    bytes.extend([0x32, 0x7F]);
    let chart = read_chart(&bytes).unwrap();
    let mut monitor = MonitorValue::ZERO;
    for _ in 0..31 {
        monitor = feed(&chart, monitor, undo(1)).1;
    }
    let (answer, after) = feed(&chart, monitor, undo(2));
    assert_eq!(answer, broken(32, Reason::ConditionFails, cause(32, 1)));
    check_fit(&chart, 2, after.cause, true);
    check_fit(&chart, 2, cause(33, 1), false);
    check_fit(&chart, 2, cause(31, 1), false);
}
