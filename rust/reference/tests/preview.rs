//! What each region's message would be answered: bytes worked out by hand, each held against
//! feeding, by the steps and by the rows; and the refusals in their order.

#[allow(dead_code)]
mod common;

use common::{clock, fed, AT_LEAST, AT_MOST};
use lsc_reference::examples::{headings, message, references, undo, CHART_U};
use lsc_reference::preview::preview;
use lsc_reference::reader::read_chart;
use lsc_reference::value::*;

/// The starts of regions: all but d touch lines 0 and 1, so that each is above those after it; d
/// has lines of its own. The plain one is on line 0.
const A: &[u8] = &[0x20, 0, 1, 0, 1];
const B: &[u8] = &[0x20, 0, 1, 0, 2];
const C: &[u8] = &[0x20, 1, 0, 0, 3];
const D: &[u8] = &[0x20, 2, 3, 0, 4];
const E: &[u8] = &[0x20, 1, 0, 0, 5];
const PLAIN: &[u8] = &[0x21, 0, 1];

const HOT: &[u8] = &[0x32];
const RESETS_0: &[u8] = &[0x40, 1];

fn a(time: u32) -> RecordValue {
    message(0, 1, 1, time)
}

fn b(time: u32) -> RecordValue {
    message(0, 1, 2, time)
}

fn d(time: u32) -> RecordValue {
    message(2, 3, 4, time)
}

/// Four lines and two clocks; the commands of the prechart and of the main chart.
fn chart(prechart: &[&[u8]], main: &[&[u8]]) -> ChartValue {
    let parts = [&[0x10, 4, 2], &prechart.concat()[..], &[0x50]];
    read_chart(&[&parts.concat()[..], &main.concat(), &[0x7F]].concat()).unwrap()
}

fn chart_u() -> ChartValue {
    read_chart(&CHART_U).unwrap()
}

/// Clock 0 at least, or at most, so much.
fn at_least(ticks: i32) -> Vec<u8> {
    clock(0, AT_LEAST, ticks)
}

fn at_most(ticks: i32) -> Vec<u8> {
    clock(0, AT_MOST, ticks)
}

/// What is shown at a moment after records that a fresh monitor took, which is what each message
/// is answered behind them.
fn shown(chart: &ChartValue, records: &[RecordValue], time: u32) -> Vec<u8> {
    let (_, monitor) = fed(chart, records);
    let bytes = bytes_of(chart, &monitor, time);
    for (byte, region) in bytes.iter().zip(&chart.regions) {
        let answered = match region.message() {
            None => 0,
            Some(message) => {
                let (answers, _) = fed(chart, &[records, &[message.at(time)]].concat());
                answers[records.len()].number()
            }
        };
        assert_eq!(*byte, answered);
    }
    bytes
}

/// The bytes of any fit monitor, in a buffer that has just the room.
fn bytes_of(chart: &ChartValue, monitor: &MonitorValue, time: u32) -> Vec<u8> {
    let mut out = vec![0xEE; usize::from(chart.count)];
    assert_eq!(preview(chart, monitor, time, &mut out), Ok(()));
    out
}

/// A refusal in a buffer of so many bytes, which stay.
fn refused(chart: &ChartValue, monitor: &MonitorValue, time: u32, room: usize) -> u8 {
    let mut out = vec![0xEE; room];
    let number = preview(chart, monitor, time, &mut out).unwrap_err();
    assert_eq!(out, vec![0xEE; room]);
    number
}

#[test]
fn over_chart_u() {
    let chart = chart_u();
    // Undo is awaited; the others come too early.
    assert_eq!(shown(&chart, &[], 0), [4, 3, 3]);
    assert_eq!(shown(&chart, &[], u32::MAX), [4, 3, 3]);
    // A second undo breaks it. Clock 0 is 20, 40, 41, 50.
    let owed = [undo(100)];
    assert_eq!(shown(&chart, &owed, 100), [1, 5, 5]);
    assert_eq!(shown(&chart, &owed, 120), [1, 5, 5]);
    assert_eq!(shown(&chart, &owed, 140), [1, 5, 5]);
    assert_eq!(shown(&chart, &owed, 141), [1, 1, 1]);
    assert_eq!(shown(&chart, &owed, 150), [1, 1, 1]);
    // One of the two is restored: the other would complete the round.
    let first = [undo(100), headings(120)];
    assert_eq!(shown(&chart, &first, 140), [1, 1, 2]);
    assert_eq!(shown(&chart, &first, 141), [1, 1, 1]);
    let second = [undo(100), references(120)];
    assert_eq!(shown(&chart, &second, 120), [1, 2, 1]);
    // Kept, and dropped: a new round.
    let kept = [undo(100), headings(120), references(140)];
    assert_eq!(shown(&chart, &kept, 140), [4, 3, 3]);
    assert_eq!(shown(&chart, &[headings(5)], 5), [4, 3, 3]);
    // At the last moment.
    let late = [undo(u32::MAX)];
    assert_eq!(shown(&chart, &late, u32::MAX), [1, 5, 5]);
}

#[test]
fn plain_regions_show_zero() {
    // A; then a plain region that it makes ready, and c.
    let waits = at_least(3);
    let hot = chart(&[A], &[PLAIN, &waits, HOT, C]);
    assert_eq!(shown(&hot, &[], 2), [1, 0, 3]);
    assert_eq!(shown(&hot, &[], 3), [4, 0, 3]);
    assert_eq!(shown(&hot, &[a(3)], 3), [1, 0, 2]);
    let cold = chart(&[A], &[PLAIN, &waits, C]);
    assert_eq!(shown(&cold, &[], 2), [3, 0, 3]);
    // The plain region completes the round.
    let alone = chart(&[A], &[PLAIN, RESETS_0]);
    assert_eq!(shown(&alone, &[], 7), [2, 0]);
    // In the prechart: a and the plain region after it leave b to come.
    let between = chart(&[A, PLAIN, &waits, B], &[C]);
    assert_eq!(shown(&between, &[], 2), [3, 0, 3, 3]);
    assert_eq!(shown(&between, &[], 3), [5, 0, 3, 3]);
    assert_eq!(shown(&between, &[a(3)], 4), [3, 0, 4, 3]);
}

#[test]
fn regions_with_one_message_show_the_same() {
    // Twice in the prechart.
    let twice = chart(&[A, A], &[C]);
    assert_eq!(shown(&twice, &[], 1), [5, 5, 3]);
    assert_eq!(shown(&twice, &[a(1)], 1), [4, 4, 3]);
    assert_eq!(shown(&twice, &[a(1), a(2)], 2), [1, 1, 2]);
    // Once in each half: the first region is fired, and its message is awaited by the second.
    let both = chart(&[A], &[A, C]);
    assert_eq!(shown(&both, &[], 1), [4, 4, 3]);
    assert_eq!(shown(&both, &[a(1)], 1), [5, 5, 1]);
    assert_eq!(shown(&both, &[a(1), a(1)], 1), [1, 1, 2]);
    // Not the same: another label, and the other way.
    let near = chart(&[A, B], &[&[0x20, 1, 0, 0, 1]]);
    assert_eq!(shown(&near, &[], 1), [5, 3, 3]);
    assert_eq!(shown(&near, &[a(1), b(1)], 1), [1, 1, 2]);
}

#[test]
fn a_fired_region_shows_its_message() {
    // In the main chart it would break.
    let chart_u = chart_u();
    assert_eq!(shown(&chart_u, &[undo(7), headings(8)], 9)[..2], [1, 1]);
    // In the prechart it would drop the round: b, which is not ready at the opening. A would open
    // the next one.
    let three = chart(&[A, B, E], &[C]);
    assert_eq!(shown(&three, &[a(1), b(2)], 3), [5, 3, 4, 3]);
}

#[test]
fn a_second_offer_that_moves() {
    let one = chart(&[A, B], &[C]);
    assert_eq!(shown(&one, &[a(1)], 2), [5, 4, 3]);
    assert_eq!(shown(&one, &[a(1), a(1), a(2)], 2), [5, 4, 3]);
    // With nothing fired there is none: b is only dropped.
    assert_eq!(shown(&one, &[], 2), [5, 3, 3]);
    // Clock 0 would be 60, and is 0 at the opening.
    let soon = at_most(5);
    let in_time = chart(&[A, &soon, B], &[C]);
    assert_eq!(shown(&in_time, &[], 5), [5, 3, 3]);
    assert_eq!(shown(&in_time, &[], 6), [3, 3, 3]);
    assert_eq!(shown(&in_time, &[a(4)], 60), [5, 4, 3]);
}

#[test]
fn a_second_offer_that_drops() {
    // A waits 3 ticks, which it has not at the opening.
    let waits = at_least(3);
    let late = chart(&[A, &waits, B], &[C]);
    assert_eq!(shown(&late, &[], 2), [3, 3, 3]);
    assert_eq!(shown(&late, &[], 3), [5, 3, 3]);
    assert_eq!(shown(&late, &[a(7)], 17), [3, 4, 3]);
    // D wakes a plain region, on line 2, that waits 2 ticks; then a, with clock 0 at most 30.
    let plain = [&[0x21, 0, 4], &at_least(2)[..]].concat();
    let two = chart(&[D, &plain, A, &at_most(30), B], &[C]);
    assert_eq!(shown(&two, &[], 1), [3, 0, 5, 3, 3]);
    assert_eq!(shown(&two, &[], 2), [5, 0, 5, 3, 3]);
    assert_eq!(shown(&two, &[d(5)], 30), [3, 0, 5, 3, 3]);
    // A fails by its own condition: the record is used up, and that is no second offer.
    assert_eq!(shown(&two, &[d(5)], 31), [3, 0, 3, 3, 3]);
    // After a at 30, clock 0 is 40: d moves, a is offered again at the opening, b leaves d to come.
    assert_eq!(shown(&two, &[a(30)], 40), [5, 0, 5, 5, 3]);
    let ready = [a(30), d(31)];
    assert_eq!(shown(&two, &ready, 40), [3, 0, 5, 4, 3]);
}

#[test]
fn without_a_prechart() {
    // Nothing is ever entered, and what comes out of turn breaks.
    let two = chart(&[], &[A, B]);
    assert_eq!(shown(&two, &[], 9), [5, 1]);
    assert_eq!(shown(&two, &[a(9)], 9), [1, 2]);
    let one = chart(&[], &[A]);
    assert_eq!(shown(&one, &[], 9), [2]);
    assert_eq!(shown(&one, &[a(9)], 9), [2]);
    // A condition of the first region, hot and cold.
    let hot = chart(&[], &[A, &at_most(2), HOT]);
    assert_eq!(shown(&hot, &[], 2), [2]);
    assert_eq!(shown(&hot, &[], 3), [1]);
    let cold = chart(&[], &[A, &at_most(2), B]);
    assert_eq!(shown(&cold, &[], 3), [3, 1]);
}

#[test]
fn a_broken_monitor_shows_broken() {
    let chart_u = chart_u();
    for records in [
        &[undo(100), undo(110)][..],
        &[undo(100), headings(141)],
        &[undo(100), undo(100), RecordValue::Time(120)],
    ] {
        let (_, monitor) = fed(&chart_u, records);
        for time in [0, 99, 110, 141, u32::MAX] {
            assert_eq!(shown(&chart_u, records, time), [1, 1, 1]);
            // With 1,000,000 records too.
            let full = MonitorValue {
                records: MAX_RECORDS,
                ..monitor
            };
            assert_eq!(bytes_of(&chart_u, &full, time), [1, 1, 1]);
            // But first comes the room.
            for room in 0..3 {
                assert_eq!(refused(&chart_u, &monitor, time, room), 12);
                assert_eq!(refused(&chart_u, &full, time, room), 12);
            }
        }
    }
    // A plain region, that did not fire, stays 0.
    let waits = at_least(3);
    let settles = chart(&[A], &[PLAIN, &waits, HOT, C]);
    assert_eq!(shown(&settles, &[a(2)], 0), [1, 0, 1]);
}

#[test]
fn refusals_in_their_order() {
    let chart = chart_u();
    let (_, owed) = fed(&chart, &[undo(100)]);
    let full = MonitorValue {
        records: MAX_RECORDS,
        ..owed
    };
    // 20 and 21 before the room, the time and the count.
    let unfit = MonitorValue { fired: 8, ..full };
    let one_line = ChartValue { lines: 1, ..chart };
    for room in 0..5 {
        for none in [ChartValue::ZERO, one_line] {
            assert_eq!(refused(&none, &unfit, 0, room), 20);
            assert_eq!(refused(&none, &owed, 100, room), 20);
        }
        assert_eq!(refused(&chart, &unfit, 0, room), 21);
        assert_eq!(refused(&chart, &unfit, 100, room), 21);
    }
    // A monitor of 1,000,001 records is unfit, broken too.
    let (_, broken) = fed(&chart, &[undo(100), undo(100)]);
    for monitor in [owed, broken] {
        let records = MAX_RECORDS + 1;
        let over = MonitorValue { records, ..monitor };
        assert_eq!(refused(&chart, &over, 100, 3), 21);
    }
    // 12 before 22 and 23, then 22, then 23.
    for (monitor, time, number) in [
        (owed, 99, 22),
        (owed, 0, 22),
        (full, 99, 22),
        (full, 100, 23),
        (full, u32::MAX, 23),
    ] {
        for room in 0..3 {
            assert_eq!(refused(&chart, &monitor, time, room), 12);
        }
        for room in 3..6 {
            assert_eq!(refused(&chart, &monitor, time, room), number);
        }
    }
    // The last record that can be taken.
    let last = MonitorValue {
        records: MAX_RECORDS - 1,
        ..owed
    };
    assert_eq!(bytes_of(&chart, &last, 100), [1, 5, 5]);
    assert_eq!(refused(&chart, &last, 100, 2), 12);
    assert_eq!(refused(&chart, &last, 99, 3), 22);
}

#[test]
fn bytes_beyond_the_regions_stay() {
    let chart = chart_u();
    for room in 3..40 {
        let mut out: Vec<u8> = (0..room).map(|place| 0x80 + place).collect();
        let mut wanted = out.clone();
        wanted[..3].copy_from_slice(&[4, 3, 3]);
        assert_eq!(preview(&chart, &MonitorValue::ZERO, 0, &mut out), Ok(()));
        assert_eq!(out, wanted);
    }
}

#[test]
fn thirty_two_regions() {
    let full = chart(&[], &[A; 32]);
    for room in [0, 1, 30, 31] {
        assert_eq!(refused(&full, &MonitorValue::ZERO, 0, room), 12);
    }
    assert_eq!(bytes_of(&full, &MonitorValue::ZERO, 0), [5; 32]);
    let last = MonitorValue {
        fired: u32::MAX >> 1,
        ..MonitorValue::ZERO
    };
    assert_eq!(bytes_of(&full, &last, 0), [2; 32]);
}

#[test]
fn monitors_that_no_records_lead_to() {
    let one = chart(&[A, B], &[C]);
    // A is fired, and now is 50, without a record.
    let odd = MonitorValue {
        fired: 1,
        now: 50,
        ..MonitorValue::ZERO
    };
    assert_eq!(bytes_of(&one, &odd, 50), [5, 4, 3]);
    assert_eq!(refused(&one, &odd, 49, 3), 22);
    // A break of which nothing else tells.
    let broken = MonitorValue {
        records: 1,
        break_record: 1,
        reason: 1,
        ..MonitorValue::ZERO
    };
    assert_eq!(bytes_of(&one, &broken, 0), [1, 1, 1]);
}
