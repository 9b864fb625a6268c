//! Places where a chart may rest (C20), worked out by hand: the command and its refusals, the
//! value, the saved bytes, the standing; and that nothing else depends on the mark.

#[allow(dead_code)]
mod common;

use common::{clock, fed, AT_MOST};
use lsc_reference::examples::{longest, message, CHART_U, OVER_PAUSED, PAUSED};
use lsc_reference::log::{breaks, judge, verdict, write_log, Verdict};
use lsc_reference::monitor::{feed, new};
use lsc_reference::preview::preview;
use lsc_reference::print::{input_of, respond, HEADER};
use lsc_reference::reader::read_chart;
use lsc_reference::value::*;
use lsc_reference::well_formed::is_given;
use lsc_reference::writer::{write, MAX_BYTES};

const REST: &[u8] = &[0x33];
const HOT: &[u8] = &[0x32];
const RESETS: &[u8] = &[0x40, 1];

/// A message: source, destination, label.
type Sent = (u8, u8, u16);

/// The prechart's message in most charts.
const U: Sent = (0, 1, 1);

/// A message region with these commands after its start.
fn region((source, destination, label): Sent, commands: &[u8]) -> Vec<u8> {
    let [high, low] = label.to_be_bytes();
    [&[0x20, source, destination, high, low], commands].concat()
}

/// A plain region on these lines, with these commands after its start.
fn plain(lines: u16, commands: &[u8]) -> Vec<u8> {
    [&[0x21], &lines.to_be_bytes()[..], commands].concat()
}

/// A chart of so many lines and one clock, with these regions in its halves.
fn chart(lines: u8, prechart: &[Vec<u8>], main: &[Vec<u8>]) -> Vec<u8> {
    let halves = [prechart.concat(), vec![0x50], main.concat()].concat();
    [&[0x10, lines, 1], &halves[..], &[0x7F]].concat()
}

fn value(bytes: &[u8]) -> ChartValue {
    read_chart(bytes).unwrap_or_else(|fault| panic!("{bytes:02X?}: {fault:?}"))
}

/// The messages as records, all at time 5.
fn records(sent: &[Sent]) -> Vec<RecordValue> {
    sent.iter()
        .map(|&(from, to, label)| message(from, to, label, 5))
        .collect()
}

/// The verdict on these records: by the monitor, by its rows (both in `fed`) and by judging.
fn judged(bytes: &[u8], records: &[RecordValue]) -> Verdict {
    let chart = value(bytes);
    let (_, monitor) = fed(&chart, records);
    let stands = verdict(&chart, &monitor);
    assert_eq!(judge(&chart, &write_log(records)), Ok(stands));
    stands
}

/// Compares the standing after each of these lists of messages.
fn stands(bytes: &[u8], cases: &[(&[Sent], u8)]) {
    for (sent, expected) in cases {
        let verdict = judged(bytes, &records(sent));
        assert_eq!(verdict.standing, *expected, "{bytes:02X?} {sent:?}");
    }
}

/// Bytes that are refused: the fault that decides, and its offset (R4, R5, R21). The heading stands
/// at 0, a message region takes five bytes, a plain one three.
const FAULTS: [(&[u8], (u8, usize)); 19] = [
    // R5: the first command is no heading.
    (&[0x33], (3, 0)),
    (&[0x33, 0x10, 2, 1], (3, 0)),
    // R5: no region has started in this half: just after the heading, just after 50.
    (&[0x10, 2, 1, 0x33], (3, 3)),
    (&[0x10, 2, 1, 0x50, 0x33], (3, 4)),
    // Just after 50, although the prechart has a region (R16).
    (&[0x10, 2, 1, 0x20, 0, 1, 0, 1, 0x50, 0x33], (3, 9)),
    // R5: another 33 in one region, at once and after other commands of it.
    (&[0x10, 2, 1, 0x50, 0x20, 0, 1, 0, 1, 0x33, 0x33], (3, 10)),
    (
        &[0x10, 2, 1, 0x50, 0x20, 0, 1, 0, 1, 0x33, 0x40, 1, 0x33],
        (3, 12),
    ),
    // R4: 13 in the prechart, in a message region and in a plain one.
    (&[0x10, 2, 1, 0x20, 0, 1, 0, 1, 0x33], (13, 8)),
    (&[0x10, 2, 1, 0x20, 0, 1, 0, 1, 0x40, 1, 0x33], (13, 10)),
    // It is found at the 33, the plain region's 6 only when it is closed.
    (
        &[0x10, 2, 1, 0x20, 0, 1, 0, 1, 0x21, 0, 1, 0x33, 0x50],
        (13, 11),
    ),
    // A second 33 cannot come in the prechart: the first is refused.
    (&[0x10, 2, 1, 0x20, 0, 1, 0, 1, 0x33, 0x33], (13, 8)),
    // Of a 32 and a 33 in the prechart the first decides: 8 or 13.
    (&[0x10, 2, 1, 0x20, 0, 1, 0, 1, 0x32, 0x33], (8, 8)),
    (&[0x10, 2, 1, 0x20, 0, 1, 0, 1, 0x33, 0x32], (13, 8)),
    // A 33 is neither a term nor a reset: 6 at the plain region, which stands at 9.
    (
        &[0x10, 2, 1, 0x20, 0, 1, 0, 1, 0x50, 0x21, 0, 1, 0x33, 0x7F],
        (6, 9),
    ),
    // Hot without a term is 7, whether the 33 comes after the 32 or before it.
    (
        &[0x10, 2, 1, 0x50, 0x20, 0, 1, 0, 1, 0x32, 0x33, 0x7F],
        (7, 4),
    ),
    (
        &[0x10, 2, 1, 0x50, 0x20, 0, 1, 0, 1, 0x33, 0x32, 0x7F],
        (7, 4),
    ),
    // A 33 closes nothing (R6), and bytes that end behind it are 1 at their length.
    (&[0x10, 2, 1, 0x50, 0x20, 0, 1, 0, 1, 0x32, 0x33], (1, 11)),
    (&[0x10, 2, 1, 0x50, 0x20, 0, 1, 0, 1, 0x7F, 0x33], (11, 10)),
    // The bytes beside it are no commands.
    (&[0x10, 2, 1, 0x50, 0x20, 0, 1, 0, 1, 0x34], (2, 9)),
];

#[test]
fn refusals_and_their_offsets() {
    for (bytes, refusal) in FAULTS {
        assert_eq!(read_chart(bytes), Err(refusal), "{bytes:02X?}");
        let refused = format!("refused chart {} at {}\n", refusal.0, refusal.1);
        assert_eq!(respond(&input_of(bytes, &[])), refused);
    }
}

#[test]
fn a_fault_beside_the_mark() {
    let start = [0x10, 2, 1, 0x50, 0x20, 0, 1, 0, 1, 0x33];
    let refused = |more: &[u8]| read_chart(&[&start, more].concat()).unwrap_err();
    // The mark is no term: four terms may follow, and a fifth is 5, at 10 + 4 * 7.
    let terms = clock(0, AT_MOST, 9).repeat(4);
    assert_eq!(refused(&terms), (1, 38));
    assert_eq!(refused(&clock(0, AT_MOST, 9).repeat(5)), (5, 38));
    // A second heading, a second 50 and an operand out of range are what they were.
    assert_eq!(refused(&[0x10, 2, 1]), (3, 10));
    assert_eq!(refused(&[0x50]), (3, 10));
    assert_eq!(refused(&[0x40, 2]), (4, 10));
    // Region 2 is plain and has none above it: 9, although region 1 is marked.
    let apart = [0x10, 4, 1, 0x50, 0x20, 0, 1, 0, 1, 0x33, 0x21, 0, 4];
    assert_eq!(read_chart(&apart), Err((9, 10)));
}

#[test]
fn the_mark_is_part_of_its_region() {
    // B5, M2: regions 3 and 5 have the mark; region 1 is the prechart. In region 2 33 is a label.
    let bytes = chart(
        2,
        &[region(U, &[])],
        &[
            region((0, 1, 0x33), &[]),
            region((1, 0, 2), REST),
            region((0, 1, 3), &[HOT, &clock(0, AT_MOST, 9), RESETS].concat()),
            plain(1, &[REST, RESETS].concat()),
        ],
    );
    let chart = value(&bytes);
    let marks: Vec<usize> = (0..MAX_REGIONS)
        .filter(|&place| chart.regions[place].rest)
        .collect();
    assert_eq!(marks, [2, 4]);
    // The condition's heat is another thing (C13).
    assert!(chart.regions[3].hot && !chart.regions[3].rest);
    assert!(!chart.regions[2].hot && !chart.regions[4].hot);
    // M3: zeros have no mark.
    assert!(!RegionValue::ZERO.rest && ChartValue::ZERO.regions.iter().all(|of| !of.rest));
}

/// What a chart is saved as, which is read as the same chart.
fn saved(bytes: &[u8]) -> Vec<u8> {
    let mut out = [0xEE; MAX_BYTES];
    let length = write(&value(bytes), &mut out).unwrap();
    assert_eq!(read_chart(&out[..length]), read_chart(bytes));
    out[..length].to_vec()
}

/// A region that is saved as it stands here, in a main chart after a prechart.
fn stays(attributes: &[&[u8]]) {
    let bytes = chart(2, &[region(U, &[])], &[region(U, &attributes.concat())]);
    assert_eq!(saved(&bytes), bytes);
}

#[test]
fn the_mark_is_saved_last_in_its_region() {
    // D3: the start, the terms, 32, 40 and the resets, 33.
    let term = clock(0, AT_MOST, 9);
    stays(&[REST]);
    stays(&[RESETS, REST]);
    stays(&[&term, REST]);
    stays(&[&term, HOT, REST]);
    stays(&[&term, RESETS, REST]);
    stays(&[&term, &term, HOT, RESETS, REST]);
    let after = plain(2, &[RESETS, REST].concat());
    let bytes = chart(2, &[region(U, &[])], &[after, region(U, REST)]);
    assert_eq!(saved(&bytes), bytes);
}

#[test]
fn every_order_in_a_region_is_one_chart() {
    // B5, B7: twenty-four orders of a term, 32, 40 and 33.
    let parts = [&clock(0, AT_MOST, 9)[..], HOT, RESETS, REST];
    let wanted = chart(2, &[], &[region(U, &parts.concat())]);
    let mut orders = 0;
    for places in 0..256 {
        let order = [0, 2, 4, 6].map(|shift| (places >> shift) % 4);
        if (0..4).any(|part| !order.contains(&part)) {
            continue;
        }
        let commands = order.map(|part| parts[part]).concat();
        let bytes = chart(2, &[], &[region(U, &commands)]);
        assert_eq!(saved(&bytes), wanted, "{bytes:02X?}");
        orders += 1;
    }
    assert_eq!(orders, 24);
}

#[test]
fn the_mark_tells_charts_apart() {
    // D5: no mark, one on either region, both.
    let marks: [&[u8]; 2] = [&[], REST];
    let charts = [(0, 0), (0, 1), (1, 0), (1, 1)].map(|(one, other)| {
        let regions = [region(U, marks[one]), region(U, marks[other])];
        chart(2, &[], &regions)
    });
    for one in &charts {
        for other in &charts {
            assert_eq!(value(one) == value(other), one == other);
            assert_eq!(saved(one) == saved(other), one == other);
        }
    }
}

#[test]
fn the_longest_chart_has_every_mark() {
    // D6: 41 bytes for each of 32 regions; without the marks it has 32 bytes fewer.
    let bytes = longest();
    assert_eq!((bytes.len(), MAX_BYTES), (1_317, 1_317));
    let mut chart = value(&bytes);
    assert!(chart.regions.iter().all(|region| region.rest));
    chart
        .regions
        .iter_mut()
        .for_each(|region| region.rest = false);
    assert_eq!(write(&chart, &mut [0; MAX_BYTES]), Ok(1_285));
}

/// Whether a value is no chart, as every operation that takes one says (M4).
fn is_refused(chart: &ChartValue) -> bool {
    let given = is_given(chart);
    let twenty = if given { None } else { Some(20) };
    assert_eq!(new(chart).err(), twenty);
    assert_eq!(judge(chart, &[]).err(), twenty.map(|number| (number, 0)));
    assert_eq!(breaks(chart, &[]).err(), twenty.map(|number| (number, 0)));
    let written = write(chart, &mut [0; MAX_BYTES]);
    assert_eq!(written.err(), twenty.map(|number| (number, 0)));
    let fresh = MonitorValue::ZERO;
    let shown = preview(chart, &fresh, 0, &mut [0; MAX_REGIONS]);
    assert_eq!(shown.err(), twenty);
    let (answer, _) = feed(chart, fresh, RecordValue::Time(0));
    assert_eq!(answer.number(), twenty.unwrap_or(6));
    !given
}

#[test]
fn marks_that_no_chart_has() {
    // Chart U: region 1 is the prechart, regions 2 and 3 the main chart, 4 to 32 are spare (M7).
    for place in 0..MAX_REGIONS {
        let mut chart = value(&CHART_U);
        chart.regions[place].rest = true;
        assert_eq!(is_refused(&chart), !(1..3).contains(&place), "{place}");
    }
    let marked = |places: &[usize]| {
        let mut chart = value(&CHART_U);
        for &place in places {
            chart.regions[place].rest = true;
        }
        chart
    };
    assert!(!is_refused(&marked(&[1, 2])));
    assert!(is_refused(&marked(&[0, 1, 2])));
    assert!(is_refused(&marked(&[1, 2, 31])));
    // M6: the marked region comes into the prechart. It is not hot, so that nothing else is wrong.
    let mut chart = marked(&[1]);
    chart.regions[1].hot = false;
    assert!(!is_refused(&chart));
    chart.prechart = 2;
    assert!(is_refused(&chart));
    chart.regions[1].rest = false;
    assert!(!is_refused(&chart));
    // M7: the marked region goes out of use, and nothing but its mark is left.
    let mut chart = value(&CHART_U);
    chart.count = 2;
    chart.regions[2] = RegionValue::ZERO;
    assert!(!is_refused(&chart));
    chart.regions[2].rest = true;
    assert!(is_refused(&chart));
}

#[test]
fn the_sample_that_may_rest() {
    // Worked out in `examples/README.md`.
    for (records, expected) in OVER_PAUSED {
        let words = judged(&PAUSED, records).numbers().map(|n| n.to_string());
        assert_eq!(words.join(" "), expected, "{records:?}");
    }
    assert_eq!(saved(&PAUSED), PAUSED);
}

/// The main chart's messages on lines 0 and 1.
const A: Sent = (1, 0, 2);
const B: Sent = (0, 1, 3);
const C: Sent = (1, 0, 4);
const D: Sent = (0, 1, 5);

#[test]
fn the_last_fired_region_decides() {
    // All touch lines 0 and 1. A and C are marked, B and D are not.
    let bytes = chart(
        2,
        &[region(U, &[])],
        &[
            region(A, REST),
            region(B, &[]),
            region(C, REST),
            region(D, &[]),
        ],
    );
    stands(
        &bytes,
        &[
            (&[], 0),
            // Both lines count, and no main region is fired on them; undo is of the prechart.
            (&[U], 2),
            // The last fired one is A, marked; then B, not marked, though A is; then C, marked,
            // though B is not.
            (&[U, A], 4),
            (&[U, A, B], 2),
            (&[U, A, B, C], 4),
            // Kept: nothing is fired. Then another round.
            (&[U, A, B, C, D], 0),
            (&[U, A, B, C, D, U], 2),
            (&[U, A, B, C, D, U, A], 4),
            // Broken, from 2 and from 4.
            (&[U, U], 3),
            (&[U, A, A], 3),
            (&[U, A, B, C, A], 3),
            // Dropped in the prechart, nothing fired.
            (&[A], 0),
        ],
    );
    let verdict = judged(&bytes, &records(&[U, A, B, C, D, U, A]));
    assert_eq!(verdict.numbers(), [4, 1, 0, 7, 0, 0, 0, 0]);
    let verdict = judged(&bytes, &records(&[U, A, A]));
    assert_eq!(verdict.numbers(), [3, 0, 0, 3, 3, 1, 0, 0]);
    // Records that fire nothing leave it: time, and a message of no region.
    let quiet = [
        message(0, 1, 1, 5),
        message(1, 0, 2, 6),
        RecordValue::Time(7),
        message(1, 0, 9, 8),
    ];
    assert_eq!(judged(&bytes, &quiet).numbers(), [4, 0, 0, 4, 0, 0, 0, 0]);
    let text = respond(&input_of(&bytes, &write_log(&quiet)));
    assert_eq!(text, format!("{HEADER}\n4 0 0 4 0 0 0 0\n"));
}

#[test]
fn without_a_mark_it_is_never_4() {
    let bytes = chart(
        2,
        &[region(U, &[])],
        &[region(A, &[]), region(B, &[]), region(C, &[])],
    );
    stands(&bytes, &[(&[U], 2), (&[U, A], 2), (&[U, A, B], 2)]);
    // A mark on the last region of all, or on the only one, is never rested on.
    let last = chart(2, &[region(U, &[])], &[region(A, &[]), region(B, REST)]);
    stands(&last, &[(&[U], 2), (&[U, A], 2), (&[U, A, B], 0)]);
    let only = chart(2, &[region(U, &[])], &[region(A, REST)]);
    stands(&only, &[(&[U], 2), (&[U, A], 0)]);
}

/// Messages on lines 2 and 3.
const E: Sent = (2, 3, 6);
const F: Sent = (3, 2, 7);

#[test]
fn every_line_that_counts_is_asked() {
    // A and B on lines 0 and 1, E and F on lines 2 and 3; A and E are marked.
    let with = |e: &[u8]| {
        let main = [
            region(A, REST),
            region(E, e),
            region(B, &[]),
            region(F, &[]),
        ];
        chart(4, &[region(U, &[])], &main)
    };
    stands(
        &with(REST),
        &[
            (&[U], 2),
            // The other two lines count and have nothing fired.
            (&[U, A], 2),
            (&[U, E], 2),
            // All four lines are cold, whichever came first.
            (&[U, A, E], 4),
            (&[U, E, A], 4),
            // Lines 0 and 1 have all fired and do not count, though B is not marked; lines 2 and 3
            // have nothing fired, then E, which is marked.
            (&[U, A, B], 2),
            (&[U, A, B, E], 4),
            (&[U, A, E, B], 4),
            (&[U, E, A, F], 4),
            (&[U, A, E, B, F], 0),
        ],
    );
    // E is not marked: one pair of lines is cold, the other hot, which is enough for 2.
    stands(
        &with(&[]),
        &[
            (&[U, A], 2),
            (&[U, A, E], 2),
            (&[U, E, A], 2),
            // Lines 0 and 1 do not count any more; lines 2 and 3 are hot.
            (&[U, A, E, B], 2),
            // Lines 2 and 3 do not count any more; lines 0 and 1 are cold.
            (&[U, A, E, F], 4),
        ],
    );
}

#[test]
fn each_line_has_its_own_last_region() {
    // Line 0: A and G. Line 1: A and H. Line 2: H and G. Each is above the next.
    let (g, h) = ((0, 2, 8), (1, 2, 9));
    let with = |a: &[u8], h_mark: &[u8]| {
        let main = [region(A, a), region(h, h_mark), region(g, &[])];
        chart(3, &[region(U, &[])], &main)
    };
    // After A: lines 0 and 1 are cold, line 2 has nothing fired. After H: line 1 has all fired and
    // does not count; line 0 is as cold as A, line 2 as H.
    stands(&with(REST, REST), &[(&[U, A], 2), (&[U, A, h], 4)]);
    stands(&with(REST, &[]), &[(&[U, A], 2), (&[U, A, h], 2)]);
    stands(&with(&[], REST), &[(&[U, A], 2), (&[U, A, h], 2)]);
}

#[test]
fn lines_without_main_regions_do_not_count() {
    // Lines 2 to 15 have the prechart's region or none.
    let undo = (0, 2, 1);
    let with = |lines: u8| {
        let main = [region(A, REST), region(B, &[])];
        chart(lines, &[region(undo, &[])], &main)
    };
    for lines in [3, 4, 16] {
        stands(&with(lines), &[(&[undo], 2), (&[undo, A], 4)]);
    }
    // A region below B on the last line makes it count, and nothing is fired on it.
    let below = plain(0x8001, RESETS);
    let main = [region(A, REST), region(B, &[]), below];
    let bytes = chart(16, &[region(undo, &[])], &main);
    stands(&bytes, &[(&[undo, A], 2), (&[undo, A, B], 0)]);
}

#[test]
fn plain_regions_touch_lines_too() {
    // A, which settles a plain region P, then B.
    let with = |a: &[u8], lines: u16, p: &[u8]| {
        let after = plain(lines, &[RESETS, p].concat());
        let main = [region(A, a), after, region(B, &[])];
        chart(2, &[region(U, &[])], &main)
    };
    let after_a = |bytes: Vec<u8>, expected: u8| stands(&bytes, &[(&[U], 2), (&[U, A], expected)]);
    // P is the last fired on both lines.
    after_a(with(&[], 3, REST), 4);
    after_a(with(REST, 3, &[]), 2);
    // P on line 0 alone: line 1 is as hot as A.
    after_a(with(&[], 1, REST), 2);
    after_a(with(REST, 1, &[]), 2);
    after_a(with(REST, 1, REST), 4);
    // P on line 1 alone.
    after_a(with(&[], 2, REST), 2);
    after_a(with(REST, 2, &[]), 2);
    after_a(with(REST, 2, REST), 4);
    // A marked plain region that fires with the prechart's last message: 4 at once.
    let first = plain(3, &[RESETS, REST].concat());
    let bytes = chart(2, &[region(U, &[])], &[first, region(A, &[])]);
    stands(&bytes, &[(&[], 0), (&[U], 4), (&[U, A], 0)]);
    // On line 0 alone it leaves line 1 with nothing fired.
    let first = plain(1, &[RESETS, REST].concat());
    let bytes = chart(2, &[region(U, &[])], &[first, region(A, &[])]);
    stands(&bytes, &[(&[U], 2)]);
    // An unfired plain region alone makes its line count.
    let last = plain(4 + 1, RESETS);
    let main = [
        region((1, 2, 8), &[]),
        region(A, REST),
        region(B, &[]),
        last,
    ];
    let bytes = chart(3, &[region(U, &[])], &main);
    stands(&bytes, &[(&[U, (1, 2, 8), A], 2)]);
}

#[test]
fn the_prechart_never_counts() {
    // The prechart's two regions touch lines 0 and 1, as the main chart's do.
    let second = (0, 1, 9);
    let prechart = [region(U, &[]), region(second, &[])];
    let bytes = chart(2, &prechart, &[region(A, REST), region(B, &[])]);
    stands(
        &bytes,
        &[
            (&[U], 1),
            (&[U, second], 2),
            (&[U, second, A], 4),
            // A in the prechart drops the round, and fits no opening.
            (&[U, A], 0),
        ],
    );
    // The second undo starts the next round (T33), which rests as any other.
    let verdict = judged(&bytes, &records(&[U, U, second, A]));
    assert_eq!(verdict.numbers(), [4, 0, 1, 4, 0, 0, 0, 0]);
}

#[test]
fn an_empty_prechart() {
    // J9: nothing fired is 0, not 2 and not 4. Then the first region's mark decides.
    let marks: [&[u8]; 2] = [&[], REST];
    for (mark, expected) in marks.into_iter().zip([2, 4]) {
        let bytes = chart(2, &[], &[region(A, mark), region(B, &[])]);
        stands(&bytes, &[(&[], 0), (&[A], expected), (&[A, B], 0)]);
        stands(&bytes, &[(&[B], 3), (&[A, A], 3)]);
    }
    // Two regions apart.
    let bytes = chart(4, &[], &[region(A, REST), region(E, REST), region(B, &[])]);
    stands(&bytes, &[(&[E], 2), (&[A], 2), (&[A, B], 2), (&[A, E], 4)]);
    // Lines 2 and 3 have all fired.
    stands(&bytes, &[(&[E, A], 4)]);
}

#[test]
fn rounds_that_end_by_a_condition() {
    // B wants clock 0 at most 3: cold it drops the round, hot it breaks it. A is marked.
    let within = clock(0, AT_MOST, 3);
    let with = |hot: &[u8]| {
        let b = region(B, &[&within, hot].concat());
        chart(2, &[region(U, &[])], &[region(A, REST), b, region(C, &[])])
    };
    let log = [
        message(0, 1, 1, 0),
        message(1, 0, 2, 0),
        message(0, 1, 3, 4),
    ];
    for (hot, expected) in [
        (&[][..], [0, 0, 1, 3, 0, 0, 0, 0]),
        (HOT, [3, 0, 0, 3, 3, 2, 3, 1]),
    ] {
        assert_eq!(judged(&with(hot), &log[..2]).standing, 4);
        assert_eq!(judged(&with(hot), &log).numbers(), expected);
    }
}

#[test]
fn thirty_two_regions() {
    // All on lines 0 and 1, no prechart: region 31 has another mark than the others.
    let with = |place: u8, others: &[u8], mark: &[u8]| {
        let label = u16::from(place);
        region((0, 1, label), if place == 31 { mark } else { others })
    };
    for (others, mark, expected) in [(&[][..], REST, [2, 4]), (REST, &[], [4, 2])] {
        let main: Vec<Vec<u8>> = (1..=32).map(|place| with(place, others, mark)).collect();
        let chart = value(&chart(2, &[], &main));
        let mut monitor = MonitorValue::ZERO;
        let after = (1..=32).map(|label| {
            monitor = feed(&chart, monitor, message(0, 1, label, 5)).1;
            verdict(&chart, &monitor).standing
        });
        let standings: Vec<u8> = after.collect();
        assert_eq!(standings[..30], [expected[0]; 30]);
        assert_eq!(standings[30..], [expected[1], 0]);
    }
}

/// The verdict with standing 2 for 4.
fn owed(verdict: Verdict) -> Verdict {
    let standing = match verdict.standing {
        4 => 2,
        other => other,
    };
    Verdict {
        standing,
        ..verdict
    }
}

#[test]
fn nothing_else_depends_on_the_mark() {
    // J14: every list of five of these messages, a hot and a cold condition among the regions, with
    // each set of marks on them and with none.
    let regions = [
        region(A, &clock(0, AT_MOST, 7)),
        region(E, &[]),
        plain(6, RESETS),
        region(B, &[&clock(0, AT_MOST, 2), HOT].concat()),
    ];
    let bare = value(&chart(4, &[region(U, &[])], &regions));
    let kinds = [U, A, E, B];
    let mut rested = 0;
    for marks in 1..16usize {
        let mut marked = bare;
        for place in 0..4 {
            marked.regions[1 + place].rest = (marks >> place) % 2 == 1;
        }
        for list in 0..1_024usize {
            let list: Vec<RecordValue> = (0..5)
                .map(|turn| (turn, kinds[(list >> (2 * turn)) % 4]))
                .map(|(turn, (from, to, label))| message(from, to, label, 2 * turn as u32))
                .collect();
            let mut monitor = MonitorValue::ZERO;
            for record in &list {
                let fed = feed(&marked, monitor, *record);
                assert_eq!(fed, feed(&bare, monitor, *record));
                monitor = fed.1;
                let stands = verdict(&marked, &monitor);
                assert_eq!(owed(stands), verdict(&bare, &monitor));
                rested += usize::from(stands.standing == 4);
                let (mut shown, mut expected) = ([9; 5], [9; 5]);
                let said = preview(&marked, &monitor, 9, &mut shown);
                assert_eq!(said, preview(&bare, &monitor, 9, &mut expected));
                assert_eq!(shown, expected);
            }
            let log = write_log(&list);
            assert_eq!(breaks(&marked, &log), breaks(&bare, &log));
            assert_eq!(judge(&marked, &log).map(owed), judge(&bare, &log));
        }
    }
    assert!(rested > 200, "only {rested} times");
}

#[test]
fn rows_of_every_short_list() {
    // The rows' standing (J13) on every list of up to four messages, for each set of marks.
    let kinds = [U, A, E, B];
    for marks in 0..16usize {
        let mark = |place: usize| if (marks >> place) % 2 == 1 { REST } else { &[] };
        let main = [
            region(A, mark(0)),
            region(E, mark(1)),
            plain(6, &[RESETS, mark(2)].concat()),
            region(B, mark(3)),
        ];
        let bytes = chart(4, &[region(U, &[])], &main);
        for list in 0..256usize {
            let sent: Vec<Sent> = (0..4).map(|turn| kinds[(list >> (2 * turn)) % 4]).collect();
            for length in 0..=4 {
                judged(&bytes, &records(&sent[..length]));
            }
        }
    }
}
