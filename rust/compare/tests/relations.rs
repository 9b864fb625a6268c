//! Terms at the ends of the range: judging, feeding values and feeding live bytes against the
//! table of relations and signs, and against the reference.

use lsc::{Cause, LiveMonitor, Reason};
use lsc_compare::image::{Image, MONITOR_IMAGE};
use lsc_compare::testing;
use lsc_reference::log::{judge, write_log};
use lsc_reference::reader::read_chart;
use lsc_reference::value::*;
use std::collections::BTreeSet;

/// <, ≤, =, ≥ and > of a difference from n that is below zero, zero, above zero.
const TABLE: [[bool; 3]; 5] = [
    [true, false, false],
    [true, true, false],
    [false, true, false],
    [false, true, true],
    [false, false, true],
];

const TIMES: [u32; 9] = [
    0,
    1,
    2,
    0x7FFF_FFFE,
    0x7FFF_FFFF,
    0x8000_0000,
    0x8000_0001,
    0xFFFF_FFFE,
    0xFFFF_FFFF,
];

const NUMBERS: [i32; 9] = [
    i32::MIN,
    i32::MIN + 1,
    -2,
    -1,
    0,
    1,
    2,
    i32::MAX - 1,
    i32::MAX,
];

const ANSWER_BROKEN: u8 = 1;
const ANSWER_KEPT: u8 = 2;

/// The only term of the second region.
const DECIDES: Cause = Cause { region: 2, term: 1 };

/// No prechart. The first message resets clock 0; the second has the term, and is hot.
fn chart(term: &[u8]) -> Vec<u8> {
    let first = [0x10, 2, 2, 0x50, 0x20, 0, 1, 0, 1, 0x40, 1];
    let second = [0x20, 0, 1, 0, 2];
    [&first[..], &second, term, &[0x32, 0x7F]].concat()
}

/// The two messages at these times.
fn log(times: [u32; 2]) -> Vec<RecordValue> {
    let message = |label| Message {
        source: 0,
        destination: 1,
        label,
    };
    vec![message(1).at(times[0]), message(2).at(times[1])]
}

/// Kept, or broken at the second record by a condition, as each of the three ways says.
fn check(bytes: &[u8], times: [u32; 2], holds: bool) {
    let what = format!("{bytes:02X?} at {times:?}");
    let written = write_log(&log(times));
    let verdict = lsc::judge(bytes, &written).expect("no fault");
    let broken = (verdict.break_record, verdict.reason, verdict.cause);
    if holds {
        assert_eq!((verdict.kept, broken), (1, (0, None, None)), "{what}");
    } else {
        let expected = (2, Some(Reason::ConditionFails), Some(DECIDES));
        assert_eq!((verdict.kept, broken), (0, expected), "{what}");
    }

    let value = read_chart(bytes).expect("a chart");
    let reference = judge(&value, &written).expect("no fault");
    let words: Vec<String> = reference.numbers().iter().map(u32::to_string).collect();
    assert_eq!(verdict.to_string(), words.join(" "), "{what}");

    let mut live = LiveMonitor::open(bytes).expect("a chart");
    let image = value.to_image();
    let mut monitor = [0; MONITOR_IMAGE];
    let mut last = 0;
    for (label, time) in [(1, times[0]), (2, times[1])] {
        live.feed_message(0, 1, label, time).expect("no refusal");
        last = testing::feed_message(&image, &mut monitor, 0, 1, label, time);
    }
    assert_eq!(live.standing(), verdict, "{what}");
    let expected = if holds { ANSWER_KEPT } else { ANSWER_BROKEN };
    assert_eq!(last, expected, "{what}");
}

/// Two times, of which the second is not the earlier one.
fn pairs() -> impl Iterator<Item = [u32; 2]> {
    let all = TIMES.into_iter();
    all.flat_map(|early| TIMES.map(|late| [early, late]))
        .filter(|[early, late]| early <= late)
}

/// The left sides that a term can have at the second message: their bytes and their values.
fn sides([early, late]: [u32; 2]) -> [(&'static [u8], i64); 4] {
    let since = i64::from(late) - i64::from(early);
    let whole = i64::from(late);
    [
        (&[0x30, 0], since),
        (&[0x30, 1], whole),
        (&[0x31, 0, 1], since - whole),
        (&[0x31, 1, 0], whole - since),
    ]
}

#[test]
fn every_entry_at_the_ends_of_the_range() {
    let mut seen = BTreeSet::new();
    for (relation, row) in (0..).zip(TABLE) {
        for n in NUMBERS {
            for (times, (left, value)) in
                pairs().flat_map(|times| sides(times).map(|side| (times, side)))
            {
                let sign = (value - i64::from(n)).signum();
                let column = (sign + 1) as usize;
                let term = [left, &[relation], &n.to_be_bytes()].concat();
                check(&chart(&term), times, row[column]);
                seen.insert((left[0], relation, sign));
            }
        }
    }
    assert_eq!(seen.len(), 2 * 15);
}
