//! The bytes that charts are saved as, worked out by hand; the buffers, and the refusals in their
//! order.

use lsc_reference::examples::{longest, CHART_U, WIDEST};
use lsc_reference::reader::read_chart;
use lsc_reference::value::*;
use lsc_reference::writer::{write, MAX_BYTES};

/// Where the main chart starts, and the end.
const MAIN: &[u8] = &[0x50];
const END: &[u8] = &[0x7F];

/// Regions' starts: two messages between lines 0 and 1, and a plain region on line 0.
const A: &[u8] = &[0x20, 0, 1, 0, 1];
const B: &[u8] = &[0x20, 1, 0, 0, 2];
const PLAIN: &[u8] = &[0x21, 0, 1];

/// Clock 0 is at most 5; clock 1 less clock 0 is above -2.
const CLOCK: &[u8] = &[0x30, 0, 1, 0, 0, 0, 5];
const DIFFERENCE: &[u8] = &[0x31, 1, 0, 4, 0xFF, 0xFF, 0xFF, 0xFE];

const HOT: &[u8] = &[0x32];
const RESETS_0: &[u8] = &[0x40, 1];
const RESETS_BOTH: &[u8] = &[0x40, 3];

/// Two lines and two clocks; then these parts, and the end.
fn chart(parts: &[&[u8]]) -> Vec<u8> {
    [&[0x10, 2, 2], &parts.concat()[..], END].concat()
}

fn value(bytes: &[u8]) -> ChartValue {
    read_chart(bytes).unwrap()
}

/// What is in a buffer before: no two neighbours are equal.
fn filled(room: usize) -> Vec<u8> {
    (0..room).map(|place| 0xEE ^ place as u8).collect()
}

/// The bytes of a chart value, which are read as it; those after them stay.
fn bytes_of(chart: &ChartValue) -> Vec<u8> {
    let room = MAX_BYTES + 7;
    let mut out = filled(room);
    let length = write(chart, &mut out).unwrap();
    assert_eq!(out[length..], filled(room)[length..]);
    out.truncate(length);
    assert_eq!(read_chart(&out), Ok(*chart));
    out
}

/// What the chart of these bytes is saved as.
fn saved(bytes: &[u8]) -> Vec<u8> {
    bytes_of(&value(bytes))
}

/// A chart whose bytes are those that it is saved as.
fn stays(bytes: &[u8]) {
    assert_eq!(saved(bytes), bytes);
}

#[test]
fn chart_u_and_the_widest_chart() {
    stays(&CHART_U);
    assert_eq!(saved(&CHART_U).len(), 38);
    stays(&WIDEST);
}

#[test]
fn the_halves() {
    // The smallest chart: heading, 50, one message, 7F.
    let smallest = [0x10, 2, 0, 0x50, 0x20, 0, 1, 0, 1, 0x7F];
    stays(&smallest);
    // One region in each half; the same two in the main chart; three and one, one and three.
    stays(&chart(&[A, MAIN, B]));
    stays(&chart(&[MAIN, A, B]));
    stays(&chart(&[A, B, A, MAIN, B]));
    stays(&chart(&[A, MAIN, B, A, B]));
}

#[test]
fn the_order_in_a_region() {
    let expected = chart(&[A, MAIN, B, DIFFERENCE, CLOCK, HOT, RESETS_BOTH]);
    stays(&expected);
    // The two terms in this order, hot and the resets at any places: twelve ways.
    let terms = [DIFFERENCE, CLOCK];
    for hot in 0..=2 {
        for resets in 0..=3 {
            let mut parts = terms.to_vec();
            parts.insert(hot, HOT);
            parts.insert(resets, RESETS_BOTH);
            let bytes = chart(&[A, MAIN, B, &parts.concat()]);
            assert_eq!(saved(&bytes), expected);
        }
    }
    // The other order of the terms is another chart.
    let bytes = chart(&[A, MAIN, B, RESETS_BOTH, CLOCK, HOT, DIFFERENCE]);
    let expected = chart(&[A, MAIN, B, CLOCK, DIFFERENCE, HOT, RESETS_BOTH]);
    assert_eq!(saved(&bytes), expected);
}

#[test]
fn each_region_has_its_own() {
    let bytes = chart(&[
        &[A, RESETS_0, CLOCK].concat(),
        &[PLAIN, RESETS_BOTH, DIFFERENCE].concat(),
        B,
        MAIN,
        &[PLAIN, HOT, CLOCK].concat(),
        &[A, RESETS_0].concat(),
        &[B, HOT, RESETS_0, DIFFERENCE].concat(),
        &[PLAIN, RESETS_BOTH].concat(),
    ]);
    let expected = chart(&[
        &[A, CLOCK, RESETS_0].concat(),
        &[PLAIN, DIFFERENCE, RESETS_BOTH].concat(),
        B,
        MAIN,
        &[PLAIN, CLOCK, HOT].concat(),
        &[A, RESETS_0].concat(),
        &[B, DIFFERENCE, HOT, RESETS_0].concat(),
        &[PLAIN, RESETS_BOTH].concat(),
    ]);
    assert_eq!(saved(&bytes), expected);
    // Heading, 50 and 7F; regions of 14, 13, 5, 11, 7, 16 and 5 bytes.
    assert_eq!(expected.len(), 5 + 14 + 13 + 5 + 11 + 7 + 16 + 5);
}

#[test]
fn plain_regions() {
    // Below a message of the opening half: a term, a reset, both, hot.
    stays(&chart(&[A, PLAIN, CLOCK, PLAIN, RESETS_0, MAIN, B]));
    stays(&chart(&[MAIN, A, PLAIN, CLOCK, RESETS_0]));
    stays(&chart(&[MAIN, A, PLAIN, CLOCK, HOT, PLAIN, RESETS_0]));
    // As the main chart's first region, with all that it can have.
    let expected = chart(&[A, MAIN, PLAIN, DIFFERENCE, CLOCK, HOT, RESETS_BOTH]);
    stays(&expected);
    let bytes = chart(&[A, MAIN, PLAIN, RESETS_BOTH, HOT, DIFFERENCE, CLOCK]);
    assert_eq!(saved(&bytes), expected);
    // Sixteen lines: the set has two bytes, line 15 in the first.
    stays(&[
        0x10, 16, 1, 0x50, 0x20, 15, 0, 0, 1, 0x21, 0x80, 0x02, 0x40, 1, 0x21, 0, 1, 0x40, 1, 0x7F,
    ]);
}

#[test]
fn resets_and_hot() {
    let with = |attributes: &[u8]| {
        let start = [0x10, 2, 8, 0x20, 0, 1, 0, 1, 0x50, 0x20, 1, 0, 0, 2];
        [&start[..], attributes, END].concat()
    };
    // Not hot: no resets, one, all eight.
    stays(&with(&[]));
    stays(&with(&[0x40, 0x80]));
    stays(&with(&[0x40, 0xFF]));
    // Hot, with a term.
    let term = [0x30, 7, 3, 0, 0, 0, 1];
    let after_term = |attributes: &[u8]| with(&[&term, attributes].concat());
    stays(&after_term(&[]));
    stays(&after_term(&[0x32]));
    stays(&after_term(&[0x40, 0x10]));
    stays(&after_term(&[0x32, 0x40, 0xFF]));
    let resets_first = with(&[&[0x40, 0xFF, 0x32], &term[..]].concat());
    assert_eq!(saved(&resets_first), after_term(&[0x32, 0x40, 0xFF]));
}

#[test]
fn terms_of_both_kinds_with_every_relation() {
    let term = |start: &[u8], relation: u8, n: [u8; 4]| [start, &[relation], &n].concat();
    let least = [0x80, 0, 0, 0];
    let most = [0x7F, 0xFF, 0xFF, 0xFF];
    let first = [
        term(&[0x30, 1], 0, least),
        term(&[0x31, 0, 1], 1, [0xFF, 0xFF, 0xFF, 0xFF]),
        term(&[0x30, 0], 2, [0x12, 0x34, 0x56, 0x78]),
        term(&[0x31, 1, 0], 3, most),
    ];
    let second = [
        term(&[0x31, 1, 0], 4, least),
        term(&[0x30, 0], 3, most),
        term(&[0x30, 0], 3, most),
        term(&[0x30, 1], 0, [0, 0, 0, 0]),
    ];
    let bytes = chart(&[A, &first.concat(), MAIN, B, &second.concat(), HOT]);
    stays(&bytes);
    // One to four terms.
    for count in 1..=4 {
        stays(&chart(&[A, MAIN, B, &first[..count].concat(), HOT]));
        stays(&chart(&[A, &second[..count].concat(), MAIN, B]));
    }
    // Hot and the resets between the terms.
    let between = chart(&[
        A, MAIN, B, &first[0], RESETS_0, &first[1], &first[2], HOT, &first[3],
    ]);
    let expected = chart(&[A, MAIN, B, &first.concat(), HOT, RESETS_0]);
    assert_eq!(saved(&between), expected);
}

#[test]
fn a_label_has_its_high_byte_first() {
    stays(&[0x10, 2, 0, 0x50, 0x20, 1, 0, 0x12, 0x34, 0x7F]);
    stays(&[0x10, 2, 0, 0x50, 0x20, 1, 0, 0x34, 0x12, 0x7F]);
}

/// The longest chart with the mark to rest on, resets, hot and terms in this order in each region.
fn longest_backwards() -> Vec<u8> {
    let bytes = longest();
    let (heading, regions) = bytes.split_at(4);
    let mut backwards = heading.to_vec();
    for region in regions.chunks_exact(41) {
        backwards.extend(&region[..5]);
        backwards.extend([0x33, 0x40, 0xFF, 0x32]);
        backwards.extend(&region[5..37]);
    }
    backwards.push(0x7F);
    backwards
}

#[test]
fn the_longest_chart() {
    let bytes = longest();
    assert_eq!(bytes.len(), 1_317);
    assert_eq!(MAX_BYTES, 3 + 1 + 1 + 32 * (5 + 4 * 8 + 1 + 2 + 1));
    stays(&bytes);
    assert_ne!(longest_backwards(), bytes);
    assert_eq!(saved(&longest_backwards()), bytes);
    let mut exact = filled(1_317);
    assert_eq!(write(&value(&bytes), &mut exact), Ok(1_317));
    assert_eq!(exact, bytes);
    let mut short = filled(1_316);
    assert_eq!(write(&value(&bytes), &mut short), Err((12, 1_317)));
    assert_eq!(short, filled(1_316));
}

#[test]
fn buffers_of_every_length() {
    let chart = value(&CHART_U);
    for room in 0..38 {
        let mut out = filled(room);
        assert_eq!(write(&chart, &mut out), Err((12, 38)));
        assert_eq!(out, filled(room));
    }
    let mut exact = filled(38);
    assert_eq!(write(&chart, &mut exact), Ok(38));
    assert_eq!(exact, CHART_U);
    for more in [1, 2, 100, 2_000] {
        let mut out = filled(38 + more);
        assert_eq!(write(&chart, &mut out), Ok(38));
        assert_eq!(out[..38], CHART_U);
        assert_eq!(out[38..], filled(38 + more)[38..]);
    }
}

/// Chart U's value with something changed is no chart: 20, whatever the buffer, which stays.
fn no_chart(change: impl Fn(&mut ChartValue)) {
    let mut chart = value(&CHART_U);
    change(&mut chart);
    for room in [0, 1, 37, 38, 39, MAX_BYTES] {
        let mut out = filled(room);
        assert_eq!(write(&chart, &mut out), Err((20, 0)));
        assert_eq!(out, filled(room));
    }
}

#[test]
fn counts_that_no_chart_has() {
    no_chart(|chart| *chart = ChartValue::ZERO);
    no_chart(|chart| chart.lines = 3);
    no_chart(|chart| chart.lines = 17);
    no_chart(|chart| chart.clocks = 0);
    no_chart(|chart| chart.clocks = 9);
    no_chart(|chart| chart.count = 0);
    no_chart(|chart| chart.count = 4);
    no_chart(|chart| chart.count = 33);
    no_chart(|chart| chart.count = 255);
    // No main region; more in the prechart than there are; a hot one in it.
    no_chart(|chart| chart.prechart = 3);
    no_chart(|chart| chart.prechart = 4);
    no_chart(|chart| chart.prechart = 2);
}

#[test]
fn regions_that_no_chart_has() {
    // A spare region, a spare term.
    no_chart(|chart| chart.regions[3].resets = 1);
    no_chart(|chart| chart.regions[31].event = EventValue::Plain(1));
    no_chart(|chart| chart.regions[31].terms[3].n = 1);
    no_chart(|chart| chart.regions[0].terms[0].n = -1);
    no_chart(|chart| chart.regions[1].terms[1].relation = 1);
    no_chart(|chart| chart.regions[1].terms[3].left = LeftValue::Difference(0, 0));
    // One region fewer in use, one term fewer: the last is spare.
    no_chart(|chart| chart.count = 2);
    no_chart(|chart| chart.regions[2].term_count = 0);
    // Hot in the prechart; hot without a term.
    no_chart(|chart| chart.regions[0].hot = true);
    no_chart(|chart| {
        chart.regions[2].terms[0] = TermValue::ZERO;
        chart.regions[2].term_count = 0;
    });
    // Operands out of range.
    no_chart(|chart| chart.regions[1].terms[0].relation = 5);
    no_chart(|chart| chart.regions[1].terms[0].left = LeftValue::Clock(1));
    no_chart(|chart| chart.regions[1].terms[0].left = LeftValue::Difference(0, 0));
    no_chart(|chart| chart.regions[1].term_count = 5);
    no_chart(|chart| chart.regions[2].resets = 2);
    no_chart(|chart| chart.regions[2].event = EventValue::Plain(0));
    no_chart(|chart| chart.regions[2].event = EventValue::Plain(16));
    // A plain region with neither term nor reset; one that opens the prechart.
    no_chart(|chart| {
        chart.regions[2] = RegionValue {
            event: EventValue::Plain(1),
            ..RegionValue::ZERO
        };
    });
    no_chart(|chart| chart.regions[0].event = EventValue::Plain(1));
}

#[test]
fn changes_that_leave_a_chart() {
    let saved_with = |change: fn(&mut ChartValue), place: usize, byte: u8| {
        let mut chart = value(&CHART_U);
        change(&mut chart);
        let mut expected = CHART_U;
        expected[place] = byte;
        assert_eq!(bytes_of(&chart), expected);
    };
    saved_with(|chart| chart.lines = 16, 1, 16);
    saved_with(|chart| chart.clocks = 8, 2, 8);
    saved_with(|chart| chart.regions[1].terms[0].n = 41, 22, 41);
    saved_with(|chart| chart.regions[2].terms[0].relation = 4, 31, 4);
}

#[test]
fn bytes_tell_charts_apart() {
    // Each differs from the others in little.
    let charts = [
        chart(&[A, MAIN, B]),
        chart(&[MAIN, A, B]),
        chart(&[MAIN, B, A]),
        chart(&[B, MAIN, A]),
        chart(&[A, MAIN, A]),
        chart(&[A, MAIN, B, CLOCK]),
        chart(&[A, MAIN, B, CLOCK, HOT]),
        chart(&[A, MAIN, B, CLOCK, RESETS_0]),
        chart(&[A, MAIN, B, CLOCK, HOT, RESETS_0]),
        chart(&[A, MAIN, B, CLOCK, HOT, RESETS_BOTH]),
        chart(&[A, MAIN, B, RESETS_0]),
        chart(&[A, RESETS_0, MAIN, B]),
        chart(&[A, CLOCK, MAIN, B]),
        chart(&[A, MAIN, B, CLOCK, CLOCK]),
        chart(&[A, MAIN, B, CLOCK, DIFFERENCE]),
        chart(&[A, MAIN, B, DIFFERENCE, CLOCK]),
        chart(&[A, MAIN, B, PLAIN, CLOCK]),
        chart(&[A, MAIN, PLAIN, CLOCK, B]),
    ];
    for one in &charts {
        for other in &charts {
            let equal_values = value(one) == value(other);
            assert_eq!(equal_values, one == other);
            assert_eq!(saved(one) == saved(other), equal_values);
        }
    }
}
