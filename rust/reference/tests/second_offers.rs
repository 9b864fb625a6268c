//! Records that are offered a second time: cases worked out by hand, by the steps and by the rows.

mod common;

use common::{broken, cause, clock, difference, fed, AT_LEAST, AT_MOST, EQUAL};
use lsc_reference::declarative::{Ended, Rows};
use lsc_reference::examples::message;
use lsc_reference::log::{judge, verdict, write_log};
use lsc_reference::monitor::{feed, feed_fit, find, is_fit, Found, Order};
use lsc_reference::reader::read_chart;
use lsc_reference::value::Answer::*;
use lsc_reference::value::*;

/// The starts of regions: a, b and c touch lines 0 and 1, so each is above those after it; d has
/// lines of its own; e touches a line of either. The plain one is on line 0.
const A: &[u8] = &[0x20, 0, 1, 0, 1];
const B: &[u8] = &[0x20, 0, 1, 0, 2];
const C: &[u8] = &[0x20, 1, 0, 0, 3];
const D: &[u8] = &[0x20, 2, 3, 0, 4];
const E: &[u8] = &[0x20, 1, 2, 0, 5];
const PLAIN: &[u8] = &[0x21, 0, 1];

const HOT: &[u8] = &[0x32];
const RESETS_0: &[u8] = &[0x40, 1];
const RESETS_1: &[u8] = &[0x40, 2];

fn a(time: u32) -> RecordValue {
    message(0, 1, 1, time)
}

fn b(time: u32) -> RecordValue {
    message(0, 1, 2, time)
}

fn c(time: u32) -> RecordValue {
    message(1, 0, 3, time)
}

fn d(time: u32) -> RecordValue {
    message(2, 3, 4, time)
}

fn e(time: u32) -> RecordValue {
    message(1, 2, 5, time)
}

/// Four lines and two clocks; the commands of the prechart and of the main chart.
fn chart(prechart: &[&[u8]], main: &[&[u8]]) -> ChartValue {
    let parts = [&[0x10, 4, 2], &prechart.concat()[..], &[0x50]];
    read_chart(&[&parts.concat()[..], &main.concat(), &[0x7F]].concat()).unwrap()
}

/// The chart of X17: after a and b comes c.
fn a_b_then_c() -> ChartValue {
    chart(&[A, B], &[C])
}

/// The same, but a waits: clock 0 is at most 50 and at least 3.
fn a_waits() -> ChartValue {
    let waits = [clock(0, AT_MOST, 50), clock(0, AT_LEAST, 3)].concat();
    chart(&[A, &waits, B], &[C])
}

/// A stretch that opened so, from one record to another, dropped by this cause.
fn dropped(opening: u32, records: (u32, u32), cause: Cause) -> Ended {
    Ended {
        opening,
        records,
        how: Dropped(cause),
    }
}

/// Checks the answers and the verdict's numbers, and gives the monitor.
fn check(
    chart: &ChartValue,
    records: &[RecordValue],
    expected: &[Answer],
    numbers: [u32; 8],
) -> MonitorValue {
    let (answers, monitor) = fed(chart, records);
    assert_eq!(answers, expected);
    assert_eq!(verdict(chart, &monitor).numbers(), numbers);
    monitor
}

/// The stretches that ended.
fn ended(chart: &ChartValue, records: &[RecordValue]) -> Vec<Ended> {
    Rows::of(chart).meaning(records).ended
}

#[test]
fn a_second_offer_that_moves() {
    let chart = a_b_then_c();
    // X17. The second a is record 2: it ends the round that a opened and starts the next, which
    // b takes into the main chart. There are three records, not four.
    let records = [a(1), a(1), b(2)];
    let monitor = check(
        &chart,
        &records,
        &[Moved, Moved, Entered],
        [2, 0, 1, 3, 0, 0, 0, 0],
    );
    assert_eq!(monitor.fired, 0b011);
    assert_eq!(ended(&chart, &records), [dropped(0, (1, 2), Cause::NONE)]);
    // Records 2 and 3 both end a round and start the next; the last of the three rounds is kept.
    let records = [a(1), a(2), a(3), b(4), c(5)];
    let answers = [Moved, Moved, Moved, Entered, Kept];
    check(&chart, &records, &answers, [0, 1, 2, 5, 0, 0, 0, 0]);
    let last = Ended {
        opening: 3,
        records: (3, 5),
        how: Kept,
    };
    assert_eq!(
        ended(&chart, &records),
        [
            dropped(0, (1, 2), Cause::NONE),
            dropped(2, (2, 3), Cause::NONE),
            last
        ]
    );
}

#[test]
fn a_second_offer_that_fits_nothing() {
    // c is a message of the main chart; at the opening only a is ready. The next round starts
    // behind c, at its time.
    let records = [a(1), c(2)];
    let nothing = Dropped(Cause::NONE);
    let chart = a_b_then_c();
    let monitor = check(
        &chart,
        &records,
        &[Moved, nothing],
        [0, 0, 1, 2, 0, 0, 0, 0],
    );
    assert_eq!(
        (monitor.fired, monitor.resets[..2].to_vec()),
        (0, vec![2; 2])
    );
    assert_eq!(ended(&chart, &records), [dropped(0, (1, 2), Cause::NONE)]);
    // b comes with nothing fired and drops that round too; a starts another.
    check(
        &chart,
        &[a(1), c(2), b(3), a(4)],
        &[Moved, nothing, nothing, Moved],
        [1, 0, 2, 4, 0, 0, 0, 0],
    );
}

#[test]
fn nothing_was_fired() {
    // b finds no ready region, and nothing was fired: one drop for each, no second offer.
    let chart = a_b_then_c();
    let nothing = Dropped(Cause::NONE);
    let records = [b(1), b(2)];
    check(
        &chart,
        &records,
        &[nothing, nothing],
        [0, 0, 2, 2, 0, 0, 0, 0],
    );
    let order = Order::of(&chart);
    assert_eq!(find(&chart, &order, 0, &b(1)), Found::UnreadyAtOpening);
    assert_eq!(find(&chart, &order, 0b1, &a(1)), Found::Missed(Some(0)));
    assert_eq!(find(&chart, &order, 0b1, &c(1)), Found::Missed(None));
    assert_eq!(find(&chart, &order, 0b11, &a(1)), Found::UnreadyInMain);
}

#[test]
fn clocks_start_again_before_the_second_offer() {
    // a asks for clock 0 at most 5. At 3 it is 3. At 20 it would be 20; opened again, it is 0.
    let soon = chart(&[A, &clock(0, AT_MOST, 5), B], &[C]);
    let monitor = check(
        &soon,
        &[a(3), a(20)],
        &[Moved, Moved],
        [1, 0, 1, 2, 0, 0, 0, 0],
    );
    assert_eq!(monitor.resets[..2], [20, 20]);
    // Without a before it, the a at 20 is offered once, to the round opened at 0.
    check(
        &soon,
        &[a(20)],
        &[Dropped(cause(1, 1))],
        [0, 0, 1, 1, 0, 0, 0, 0],
    );
    // Every clock starts again: a resets clock 1 alone and asks that both are equal. At 3 both
    // are 3, and clock 1 starts again at 3. At 20 they would be 20 and 17; opened again, both
    // are 0, and a resets clock 1 once more.
    let equal = difference(0, 1, EQUAL, 0);
    let equal = chart(&[A, &equal, RESETS_1, B], &[C]);
    let monitor = check(
        &equal,
        &[a(3), a(20)],
        &[Moved, Moved],
        [1, 0, 1, 2, 0, 0, 0, 0],
    );
    assert_eq!(monitor.resets[..2], [20, 20]);
}

#[test]
fn two_drops_by_the_message_s_own_region() {
    let chart = a_waits();
    // At 3 clock 0 is 3. At 10 the round is dropped for want of a region; opened again, clock 0
    // is 0: the first term holds, the second fails, and the new round is dropped by region 1.
    let records = [a(3), a(10)];
    let twice = Dropped(cause(1, 2));
    let monitor = check(&chart, &records, &[Moved, twice], [0, 0, 2, 2, 0, 0, 0, 0]);
    assert_eq!((monitor.fired, monitor.resets[0]), (0, 10));
    assert_eq!(
        ended(&chart, &records),
        [
            dropped(0, (1, 2), Cause::NONE),
            dropped(10, (2, 2), cause(1, 2))
        ]
    );
    // The third round opened at 10: at 12 clock 0 is 2, with nothing fired, so one drop more; the
    // fourth opened at 12, and at 15 clock 0 is 3.
    check(
        &chart,
        &[a(3), a(10), a(12), a(15)],
        &[Moved, twice, twice, Moved],
        [1, 0, 3, 4, 0, 0, 0, 0],
    );
}

#[test]
fn two_drops_by_a_plain_region() {
    // Region 2, plain, settles after a: clock 0 at most 9 and at least 1. At 1 it is 1. At 5,
    // opened again, a fires with clock 0 at 0, and region 2's second term fails.
    let waits = [clock(0, AT_MOST, 9), clock(0, AT_LEAST, 1)].concat();
    let chart_1 = chart(&[A, PLAIN, &waits, B], &[C]);
    let monitor = check(
        &chart_1,
        &[a(1), a(5)],
        &[Moved, Dropped(cause(2, 2))],
        [0, 0, 2, 2, 0, 0, 0, 0],
    );
    assert_eq!((monitor.fired, monitor.resets[0]), (0, 5));
    // A plain region that asks for clock 0 at 0 settles both times.
    let chart_2 = chart(&[A, PLAIN, &clock(0, EQUAL, 0), B], &[C]);
    let monitor = check(
        &chart_2,
        &[a(0), a(5)],
        &[Moved, Moved],
        [1, 0, 1, 2, 0, 0, 0, 0],
    );
    assert_eq!(monitor.fired, 0b011);
}

#[test]
fn a_drop_by_a_condition_is_not_offered_again() {
    // Region 2 has the message of region 1, and asks for 20 ticks since then. At 110 it is ready
    // and fails. Region 1 would take the message, but it is not offered again.
    let again = [A, &clock(0, AT_LEAST, 20)].concat();
    let chart_1 = chart(&[A, RESETS_0, &again], &[C]);
    let records = [a(100), a(110), a(120)];
    let monitor = check(
        &chart_1,
        &records,
        &[Moved, Dropped(cause(2, 1)), Moved],
        [1, 0, 1, 3, 0, 0, 0, 0],
    );
    assert_eq!(monitor.fired, 0b1);
    assert_eq!(ended(&chart_1, &records), [dropped(0, (1, 2), cause(2, 1))]);
    // Region 2 fires, and the plain region 3 fails at 9.
    let chart_2 = chart(&[A, A, PLAIN, &clock(0, AT_MOST, 5)], &[C]);
    let monitor = check(
        &chart_2,
        &[a(1), a(9)],
        &[Moved, Dropped(cause(3, 1))],
        [0, 0, 1, 2, 0, 0, 0, 0],
    );
    assert_eq!(monitor.fired, 0);
}

#[test]
fn the_main_chart_offers_nothing_again() {
    // After a and b the prechart is fired: a third message, again a, breaks the round.
    let unready = broken(3, Reason::NoReadyRegion, Cause::NONE);
    check(
        &a_b_then_c(),
        &[a(1), b(2), a(3)],
        &[Moved, Entered, unready],
        [3, 0, 0, 3, 3, 1, 0, 0],
    );
    // Without a prechart too, although a is ready at the opening.
    let unready = broken(2, Reason::NoReadyRegion, Cause::NONE);
    check(
        &chart(&[], &[A, B]),
        &[a(1), a(2)],
        &[Moved, unready],
        [3, 0, 0, 2, 2, 1, 0, 0],
    );
    // A cold condition drops in the main chart, and region 1, which has the message, waits.
    let soon = [A, &clock(0, AT_MOST, 1)].concat();
    let monitor = check(
        &chart(&[A, RESETS_0], &[&soon]),
        &[a(5), a(9)],
        &[Entered, Dropped(cause(2, 1))],
        [0, 0, 1, 2, 0, 0, 0, 0],
    );
    assert_eq!(monitor.fired, 0);
}

#[test]
fn records_between_change_nothing() {
    let foreign = message(3, 2, 9, 3);
    let records = [a(1), RecordValue::Time(2), foreign, a(4)];
    let answers = [Moved, Quiet, Quiet, Moved];
    let chart = a_b_then_c();
    let monitor = check(&chart, &records, &answers, [1, 0, 1, 4, 0, 0, 0, 0]);
    // A refused record is not offered at all.
    assert_eq!(feed(&chart, monitor, a(3)), (Refused(22), monitor));
}

#[test]
fn a_break_after_second_offers_has_its_record_s_number() {
    // Four records, of which the second was offered twice: b is the fourth.
    let unready = broken(4, Reason::NoReadyRegion, Cause::NONE);
    check(
        &a_b_then_c(),
        &[a(1), a(2), b(3), b(4)],
        &[Moved, Moved, Entered, unready],
        [3, 0, 1, 4, 4, 1, 0, 0],
    );
    // c is hot and asks for 2 ticks after b at most; it comes after 3.
    let soon = [C, &clock(0, AT_MOST, 2), HOT].concat();
    let late = broken(4, Reason::ConditionFails, cause(3, 1));
    check(
        &chart(&[A, B, RESETS_0], &[&soon]),
        &[a(1), a(2), b(3), c(6)],
        &[Moved, Moved, Entered, late],
        [3, 0, 1, 4, 4, 2, 3, 1],
    );
}

#[test]
fn one_of_two_opening_regions_starts_again() {
    // a and d are both ready at the opening, e is below both. The second d drops the round of a
    // and d and starts one without a: e is then not ready, and no opening region either.
    let chart = chart(&[A, D, E], &[C]);
    let records = [a(1), d(2), d(3), e(4)];
    let answers = [Moved, Moved, Moved, Dropped(Cause::NONE)];
    check(&chart, &records, &answers, [0, 0, 2, 4, 0, 0, 0, 0]);
    assert_eq!(
        ended(&chart, &records),
        [
            dropped(0, (1, 3), Cause::NONE),
            dropped(3, (3, 4), Cause::NONE)
        ]
    );
    let (_, monitor) = fed(&chart, &records[..3]);
    assert_eq!(monitor.fired, 0b010);
}

#[test]
fn the_millionth_record_is_offered_twice() {
    // The first a moves; each other drops a round and starts the next.
    let chart = a_b_then_c();
    let mut log = a(9).to_bytes().repeat(1_000_000);
    let numbers = judge(&chart, &log).unwrap().numbers();
    assert_eq!(numbers, [1, 0, 999_999, 1_000_000, 0, 0, 0, 0]);
    log.extend(write_log(&[a(9)]));
    assert_eq!(judge(&chart, &log), Err((23, 9_000_000)));
    // One by one, with the most rounds that a fit monitor can have: two drops more are fit too.
    let before = MonitorValue {
        fired: 0b1,
        records: 999_999,
        kept: 999_999,
        dropped: 999_999,
        ..MonitorValue::ZERO
    };
    let chart = a_waits();
    let (answer, after) = feed(&chart, before, a(9));
    assert_eq!(answer, Dropped(cause(1, 2)));
    assert_eq!((after.records, after.dropped), (1_000_000, 1_000_001));
    assert!(is_fit(&chart, &after));
    assert_eq!(feed(&chart, after, a(9)), (Refused(23), after));
}

/// Records, kept, dropped, and whether M10 allows them together.
const COUNTS: [(u32, u32, u32, bool); 20] = [
    (0, 0, 0, true),
    (0, 0, 1, false),
    (0, 1, 0, false),
    (1, 0, 2, true),
    (1, 1, 1, true),
    (1, 2, 0, true),
    (1, 1, 2, false),
    // 4 and 5 of at most 6, then 6, then 7.
    (3, 2, 2, true),
    (3, 0, 5, true),
    (3, 2, 4, true),
    (3, 3, 4, false),
    (1_000_000, 1_000_000, 1_000_000, true),
    (1_000_000, 0, 2_000_000, true),
    (1_000_000, 1_000_000, 1_000_001, false),
    (1_000_000, 2_000_001, 0, false),
    (1_000_001, 0, 0, false),
    // In 32 bits these sums would be 0, 0, 10 and 4,294,967,294.
    (5, u32::MAX, 1, false),
    (5, 1 << 31, 1 << 31, false),
    (5, 11, u32::MAX, false),
    (5, u32::MAX, u32::MAX, false),
];

#[test]
fn counts_up_to_twice_the_records_are_fit() {
    let chart = a_b_then_c();
    for (records, kept, dropped, fit) in COUNTS {
        let monitor = MonitorValue {
            records,
            kept,
            dropped,
            ..MonitorValue::ZERO
        };
        assert_eq!(is_fit(&chart, &monitor), fit, "{monitor:?}");
        let (answer, after) = feed(&chart, monitor, RecordValue::Time(1));
        let full = records == 1_000_000;
        let expected = match fit {
            false => Refused(21),
            true if full => Refused(23),
            true => Quiet,
        };
        assert_eq!(answer, expected, "{monitor:?}");
        assert!(!fit || is_fit(&chart, &after));
    }
}

#[test]
fn two_drops_by_the_first_record() {
    // M11 allows a fired region before any record. The first record drops twice: 2 is twice 1.
    let before = MonitorValue {
        fired: 0b1,
        now: 5,
        ..MonitorValue::ZERO
    };
    let chart = a_waits();
    let (answer, after) = feed(&chart, before, a(7));
    assert_eq!(answer, Dropped(cause(1, 2)));
    assert_eq!((after.records, after.dropped, after.now), (1, 2, 7));
    assert!(is_fit(&chart, &after));
}

/// Regions of small charts: three messages and a plain one, with a term that fails at an opening,
/// the plain one also with a term that fails later, the messages also without a term.
fn small_regions() -> Vec<Vec<u8>> {
    let waits = clock(0, AT_LEAST, 1);
    let mut regions: Vec<Vec<u8>> = Vec::new();
    for event in [A, B, D] {
        regions.push(event.to_vec());
        regions.push([event, &waits].concat());
    }
    regions.push([PLAIN, &waits].concat());
    regions.push([PLAIN, &clock(0, EQUAL, 0)].concat());
    regions
}

/// All charts with a prechart of so many such regions, and c as the main chart.
fn small_charts(regions: usize) -> Vec<ChartValue> {
    let mut precharts: Vec<Vec<u8>> = vec![Vec::new()];
    for _ in 0..regions {
        let longer = |prechart: Vec<u8>| {
            let more = small_regions().into_iter();
            more.map(move |region| [&prechart[..], &region].concat())
        };
        precharts = precharts.into_iter().flat_map(longer).collect();
    }
    let charts = precharts.iter().map(|prechart| {
        let heading = [0x10, 4, 1];
        read_chart(&[&heading[..], prechart, &[0x50], C, &[0x7F]].concat())
    });
    charts.filter_map(Result::ok).collect()
}

/// Every message of such a chart, at this time and a tick later.
fn letters(now: u32) -> Vec<RecordValue> {
    let at = |time| [a(time), b(time), c(time), d(time)];
    [at(now), at(now + 1)].concat()
}

/// Second offers that moved, dropped and did not fit.
type Seen = [u32; 3];

/// Feeds every list of so many records, and checks what each does to the counts.
fn walk(chart: &ChartValue, order: &Order, before: MonitorValue, left: u32, seen: &mut Seen) {
    if left == 0 || before.broken().is_some() {
        return;
    }
    for record in letters(before.now) {
        let (answer, after) = feed_fit(chart, order, before, record);
        let drops = after.dropped - before.dropped;
        let ended = drops + after.kept - before.kept;
        match (find(chart, order, before.fired, &record), answer, drops) {
            (Found::Missed(Some(_)), Moved, 1) => seen[0] += 1,
            (Found::Missed(Some(_)), Dropped(cause), 2) if cause != Cause::NONE => seen[1] += 1,
            (Found::Missed(None), Dropped(Cause::NONE), 1) => seen[2] += 1,
            (Found::Missed(_), ..) => panic!("{chart:?} {before:?} {record:?} {answer:?}"),
            _ => assert_eq!(ended, u32::from(matches!(answer, Kept | Dropped(_)))),
        }
        assert_eq!(after.records, before.records + 1);
        // A record that ends two rounds had an earlier one that ended none: from a fresh monitor
        // there are never more rounds than records.
        assert!(after.kept + after.dropped <= after.records);
        walk(chart, order, after, left - 1, seen);
    }
}

#[test]
fn a_second_offer_moves_or_drops() {
    let mut seen = [0; 3];
    for chart in [small_charts(2), small_charts(3)].concat() {
        let order = Order::of(&chart);
        walk(&chart, &order, MonitorValue::ZERO, 4, &mut seen);
    }
    println!("moved, dropped twice, did not fit: {seen:?}");
    assert!(seen.iter().all(|times| *times > 10_000), "{seen:?}");
}

#[test]
fn rows_of_every_short_list() {
    for chart in small_charts(2) {
        let mut lists: Vec<Vec<RecordValue>> = vec![Vec::new()];
        for _ in 0..4 {
            let longer = |list: Vec<RecordValue>| {
                let now = list.last().map_or(0, RecordValue::time);
                let more = letters(now).into_iter();
                more.map(move |record| [&list[..], &[record]].concat())
            };
            lists = lists.into_iter().flat_map(longer).collect();
        }
        for list in lists {
            fed(&chart, &list);
        }
    }
}
