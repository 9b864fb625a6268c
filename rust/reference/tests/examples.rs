//! The examples of the rules (X), and edges that other rules name.

use lsc_reference::declarative::Rows;
use lsc_reference::examples::{headings, message, references, undo, CHART_U, OVER_CHART_U, WIDEST};
use lsc_reference::log::{judge, read_record, write_log, Next, Verdict};
use lsc_reference::print::{input_of, respond, HEADER};
use lsc_reference::reader::read_chart;
use lsc_reference::record::LogRecord;
use lsc_reference::value::*;
use lsc_reference::{monitor, well_formed};

fn printed(chart: &[u8], records: &[RecordValue]) -> String {
    respond(&input_of(chart, &write_log(records)))
}

fn numbers(chart: &[u8], records: &[RecordValue]) -> String {
    let text = printed(chart, records);
    let lines: Vec<&str> = text.split('\n').collect();
    assert_eq!((lines.len(), lines[0], lines[2]), (3, HEADER, ""));
    lines[1].to_string()
}

#[test]
fn chart_u() {
    assert_eq!(
        printed(&CHART_U, OVER_CHART_U[0].0),
        "STANDING KEPT DROPPED RECORDS BREAK REASON REGION TERM\n0 1 0 3 0 0 0 0\n"
    );
    let value = read_chart(&CHART_U).unwrap();
    for (records, expected) in OVER_CHART_U {
        if expected.starts_with("refused") {
            assert_eq!(printed(&CHART_U, records), format!("{expected}\n"));
            continue;
        }
        assert_eq!(numbers(&CHART_U, records), expected);
        let meaning = Rows::of(&value).meaning(records);
        let end: Vec<u32> = expected
            .split(' ')
            .map(|word| word.parse().unwrap())
            .collect();
        let monitor = meaning.monitor();
        assert_eq!(
            [monitor.kept, monitor.dropped, monitor.break_record],
            [end[1], end[2], end[4]]
        );
        let Cause { region, term } = monitor.cause;
        assert_eq!([u32::from(region), u32::from(term)], [end[6], end[7]]);
    }
    // Either order of the two that come back.
    assert_eq!(
        numbers(&CHART_U, &[undo(100), headings(101), references(140)]),
        "0 1 0 3 0 0 0 0"
    );
}

#[test]
fn chart_refusals_of_the_examples() {
    assert_eq!(read_chart(&[]), Err((1, 0)));
    assert_eq!(read_chart(&[0x10, 1, 0]), Err((4, 0)));
    assert_eq!(
        read_chart(&[0x10, 2, 1, 0x21, 0, 1, 0x40, 1, 0x50, 0x7F]),
        Err((9, 3))
    );
    assert_eq!(respond(&[0, 0]), "refused chart 1 at 0\n");
}

#[test]
fn thirty_two_regions_are_read_and_a_33rd_refused() {
    let mut bytes = vec![0x10, 2, 0, 0x50];
    for _ in 0..32 {
        bytes.extend([0x20, 0, 1, 0, 1]);
    }
    let mut whole = bytes.clone();
    whole.push(0x7F);
    let chart = read_chart(&whole).unwrap();
    assert_eq!((chart.prechart, chart.count), (0, 32));
    let offset = bytes.len();
    bytes.extend([0x20, 0, 1, 0, 1, 0x7F]);
    assert_eq!(read_chart(&bytes), Err((5, offset)));
    // 32 in all: 31 fired is fit, all fired is not.
    let mut state = MonitorValue::ZERO;
    for turn in 1..=32 {
        let (answer, after) = monitor::feed(&chart, state, undo(0));
        let expected = if turn == 32 {
            Answer::Kept
        } else {
            Answer::Moved
        };
        assert_eq!(answer, expected);
        state = after;
    }
    state.fired = u32::MAX;
    assert_eq!(
        monitor::feed(&chart, state, undo(0)),
        (Answer::Refused(21), state)
    );
}

#[test]
fn the_latest_time_is_taken() {
    assert_eq!(numbers(&CHART_U, &[undo(u32::MAX)]), "2 0 0 1 0 0 0 0");
    assert_eq!(
        numbers(
            &CHART_U,
            &[
                undo(u32::MAX - 40),
                headings(u32::MAX),
                references(u32::MAX)
            ]
        ),
        "0 1 0 3 0 0 0 0"
    );
}

#[test]
fn a_then_b_then_c() {
    // X17: the second a finds no ready region and drops the round; offered once more, it starts
    // the next one, and b completes that one's prechart.
    let chart = [
        0x10, 2, 0, 0x20, 0, 1, 0, 1, 0x20, 0, 1, 0, 2, 0x50, 0x20, 1, 0, 0, 3, 0x7F,
    ];
    let (a, b) = (message(0, 1, 1, 1), message(0, 1, 2, 2));
    assert_eq!(numbers(&chart, &[a, a, b]), "2 0 1 3 0 0 0 0");
    assert_eq!(numbers(&chart, &[a]), "1 0 0 1 0 0 0 0");
    assert_eq!(numbers(&chart, &[a, b]), "2 0 0 2 0 0 0 0");
}

/// Bytes that are refused: the fault that decides, and its offset.
const FAULTS: [(&[u8], (u8, usize)); 35] = [
    (&[0x20, 0], (1, 0)),
    (&[0x20, 0, 1, 0, 1], (3, 0)),
    (&[0x00], (2, 0)),
    (&[0x10, 2], (1, 0)),
    (&[0x10, 2, 0], (1, 3)),
    (&[0x10, 2, 0, 0x10], (1, 3)),
    (&[0x10, 2, 0, 0x10, 0, 0], (3, 3)),
    (&[0x10, 17, 0], (4, 0)),
    (&[0x10, 2, 9], (4, 0)),
    (&[0x10, 2, 0, 0x50, 0x50], (3, 4)),
    (&[0x10, 2, 1, 0x32], (3, 3)),
    (&[0x10, 2, 1, 0x20, 0, 1, 0, 1, 0x50, 0x40, 1], (3, 9)),
    (&[0x10, 2, 1, 0x20, 0, 1, 0, 1, 0x40, 1, 0x40, 1], (3, 10)),
    (&[0x10, 2, 1, 0x50, 0x20, 0, 1, 0, 1, 0x32, 0x32], (3, 10)),
    // A second 50 comes before the open region's faults.
    (&[0x10, 2, 1, 0x50, 0x20, 0, 1, 0, 1, 0x32, 0x50], (3, 10)),
    (&[0x10, 2, 1, 0x50, 0x20, 0, 1, 0, 1, 0x32, 0x7F], (7, 4)),
    // Closing comes before the closing command's own faults.
    (
        &[0x10, 2, 1, 0x50, 0x20, 0, 1, 0, 1, 0x32, 0x20, 0, 0, 0, 0],
        (7, 4),
    ),
    (&[0x10, 2, 1, 0x20, 0, 1, 0, 1, 0x21, 0, 1, 0x50], (6, 8)),
    (
        &[0x10, 2, 1, 0x20, 0, 1, 0, 1, 0x50, 0x21, 0, 1, 0x32, 0x7F],
        (6, 9),
    ),
    (
        &[
            0x10, 2, 1, 0x20, 0, 1, 0, 1, 0x50, 0x21, 0, 1, 0x40, 1, 0x32, 0x7F,
        ],
        (7, 9),
    ),
    (&[0x10, 2, 1, 0x20, 0, 0, 0, 1], (4, 3)),
    (&[0x10, 2, 1, 0x20, 0, 2, 0, 1], (4, 3)),
    (&[0x10, 2, 1, 0x21, 0, 0], (4, 3)),
    (&[0x10, 2, 1, 0x21, 0, 4], (4, 3)),
    (&[0x10, 2, 1, 0x20, 0, 1, 0, 1, 0x40, 0], (4, 8)),
    (&[0x10, 2, 1, 0x20, 0, 1, 0, 1, 0x40, 2], (4, 8)),
    (
        &[0x10, 2, 1, 0x20, 0, 1, 0, 1, 0x30, 0, 5, 0, 0, 0, 0],
        (4, 8),
    ),
    (
        &[0x10, 2, 2, 0x20, 0, 1, 0, 1, 0x31, 1, 1, 0, 0, 0, 0, 0],
        (4, 8),
    ),
    // R15: in the prechart `32` is 8, also without a term.
    (&[0x10, 2, 1, 0x20, 0, 1, 0, 1, 0x32], (8, 8)),
    // 9 is at the 21, whatever follows.
    (&[0x10, 3, 1, 0x20, 0, 1, 0, 1, 0x21, 0, 4, 0x00], (9, 8)),
    (&[0x10, 3, 1, 0x50, 0x21, 0, 4, 0x00], (9, 4)),
    (&[0x10, 2, 0, 0x7F], (10, 3)),
    (&[0x10, 2, 0, 0x20, 0, 1, 0, 1, 0x50, 0x7F], (10, 9)),
    (&[0x10, 2, 0, 0x50, 0x20, 0, 1, 0, 1, 0x7F, 0x00], (11, 10)),
    (&[0x10, 2, 0, 0x50, 0x7F, 0x00], (10, 4)),
];

#[test]
fn the_order_of_chart_faults() {
    for (bytes, refusal) in FAULTS {
        assert_eq!(read_chart(bytes), Err(refusal), "{bytes:02X?}");
    }
}

#[test]
fn four_terms_are_read_and_a_fifth_of_either_kind_refused() {
    let mut bytes = vec![0x10, 2, 2, 0x20, 0, 1, 0, 1];
    for _ in 0..2 {
        bytes.extend([0x30, 0, 0, 0, 0, 0, 0]);
        bytes.extend([0x31, 0, 1, 0, 0, 0, 0, 0]);
    }
    let offset = bytes.len();
    for fifth in [&[0x30, 0, 0, 0, 0, 0, 0][..], &[0x31, 0, 1, 0, 0, 0, 0, 0]] {
        let longer = [&bytes[..], fifth].concat();
        assert_eq!(read_chart(&longer), Err((5, offset)));
    }
    bytes.extend([0x50, 0x20, 0, 1, 0, 1, 0x7F]);
    assert_eq!(read_chart(&bytes).unwrap().regions[0].term_count, 4);
}

#[test]
fn charts_at_the_edges_are_read() {
    // A plain region first in a main chart after a prechart is fine.
    let plain_first = [
        0x10, 3, 1, 0x20, 0, 1, 0, 1, 0x50, 0x21, 0, 4, 0x40, 1, 0x7F,
    ];
    assert!(well_formed::is_given(&read_chart(&plain_first).unwrap()));
    assert!(well_formed::is_given(&read_chart(&WIDEST).unwrap()));
}

#[test]
fn the_exact_signed_difference() {
    // T5, with its reset moments.
    for (first, second, n, holds) in [
        (0, 1, 20i32, true),
        (1, 0, -20, true),
        (0, 1, -20, false),
        (1, 0, 20, false),
    ] {
        let mut bytes = vec![0x10, 2, 2, 0x50, 0x20, 0, 1, 0, 1, 0x40, 1];
        bytes.extend([0x20, 0, 1, 0, 2, 0x40, 2]);
        bytes.extend([0x20, 0, 1, 0, 3, 0x31, first, second, 2]);
        bytes.extend(n.to_be_bytes());
        bytes.push(0x7F);
        let records = [
            message(0, 1, 1, 10),
            message(0, 1, 2, 30),
            message(0, 1, 3, 77),
        ];
        let expected = if holds {
            "0 1 0 3 0 0 0 0"
        } else {
            "0 0 1 3 0 0 0 0"
        };
        assert_eq!(numbers(&bytes, &records), expected);
    }
}

#[test]
fn the_misreadings() {
    // T12: the region's test sees its clock before the region resets it.
    let own_reset = [
        0x10, 2, 1, 0x50, 0x20, 0, 1, 0, 1, 0x40, 1, 0x30, 0, 3, 0, 0, 0, 3, 0x7F,
    ];
    assert_eq!(numbers(&own_reset, &[undo(3)]), "0 1 0 1 0 0 0 0");
    assert_eq!(numbers(&own_reset, &[undo(2)]), "0 0 1 1 0 0 0 0");
    // T16: the plain region fires with undo, not with headings.
    let plain = [
        0x10, 2, 1, 0x50, 0x20, 0, 1, 0, 1, 0x40, 1, 0x21, 0, 1, 0x30, 0, 2, 0, 0, 0, 0, 0x20, 1,
        0, 0, 2, 0x7F,
    ];
    assert_eq!(numbers(&plain, &[undo(5), headings(9)]), "0 1 0 2 0 0 0 0");
    // O4: 0-1 and 2-3 are ordered by way of 1-2.
    let through = [
        0x10, 4, 0, 0x50, 0x20, 0, 1, 0, 1, 0x20, 1, 2, 0, 2, 0x20, 2, 3, 0, 3, 0x7F,
    ];
    let value = read_chart(&through).unwrap();
    let order = monitor::Order::of(&value);
    assert!(order.is_above(0, 2) && !order.is_above(2, 0));
    assert_eq!(numbers(&through, &[references(1)]), "3 0 0 1 1 1 0 0");
    assert_eq!(
        numbers(&through, &[undo(1), references(2)]),
        "3 0 0 2 2 1 0 0"
    );
}

#[test]
fn a_break_keeps_what_stood_before() {
    // Message region resetting clock 0, then a hot plain region on clock 1 that fails.
    let chart = read_chart(&[
        0x10, 2, 2, 0x50, 0x20, 0, 1, 0, 1, 0x40, 1, 0x21, 0, 1, 0x30, 1, 1, 0, 0, 0, 5, 0x32,
        0x20, 1, 0, 0, 2, 0x7F,
    ])
    .unwrap();
    let (answer, after) = monitor::feed(&chart, MonitorValue::ZERO, undo(6));
    let broken = Answer::Broken(Break {
        record: 1,
        reason: Reason::ConditionFails,
        cause: Cause { region: 2, term: 1 },
    });
    assert_eq!(answer, broken);
    assert_eq!((after.fired, after.resets[0], after.resets[1]), (1, 6, 0));
    assert_eq!((after.now, after.records), (6, 1));
    // It is final, and answers so again for any record.
    assert_eq!(
        monitor::feed(&chart, after, RecordValue::Time(0)),
        (broken, after)
    );
    // M10: the break alone makes up for the ready plain region.
    assert!(monitor::is_fit(&chart, &after));
    let unbroken = MonitorValue {
        break_record: 0,
        reason: 0,
        cause: Cause::NONE,
        ..after
    };
    assert!(!monitor::is_fit(&chart, &unbroken));
}

#[test]
fn reading_one_record_at_every_place() {
    let mut log = write_log(&[undo(100), RecordValue::Time(101)]);
    log.extend([1, 0, 0]);
    let plain = |record, after| Next::Taken(LogRecord::Plain(record), after);
    assert_eq!(read_record(&log, 0), plain(undo(100), 9));
    assert_eq!(read_record(&log, 9), plain(RecordValue::Time(101), 14));
    assert_eq!(read_record(&log, 14), Next::Refused(30));
    assert_eq!(read_record(&log, 16), Next::Refused(31));
    for place in [17, 18, usize::MAX] {
        assert_eq!(read_record(&log, place), Next::End);
    }
    assert_eq!(read_record(&[], 0), Next::End);
}

#[test]
fn the_millionth_record_and_the_next() {
    let chart = read_chart(&CHART_U).unwrap();
    let mut log = RecordValue::Time(9).to_bytes().repeat(1_000_000);
    let verdict = Verdict {
        records: 1_000_000,
        ..Verdict::ZERO
    };
    assert_eq!(judge(&chart, &log), Ok(verdict));
    log.extend(RecordValue::Time(9).to_bytes());
    assert_eq!(judge(&chart, &log), Err((23, 5_000_000)));
    // 22 comes before 23, 30 before both.
    let place = log.len() - 1;
    log[place] = 8;
    assert_eq!(judge(&chart, &log), Err((22, 5_000_000)));
    log.truncate(place);
    assert_eq!(judge(&chart, &log), Err((30, 5_000_000)));
}

#[test]
fn the_program_s_input() {
    assert_eq!(respond(&[]), "refused input 41 at 0\n");
    assert_eq!(respond(&[0]), "refused input 41 at 0\n");
    assert_eq!(respond(&[0, 1]), "refused input 41 at 0\n");
    assert_eq!(respond(&[0xFF; 65_536]), "refused input 41 at 0\n");
    assert_eq!(respond(&[0xFF; 65_537]), "refused input 40 at 0\n");
    let mut input = input_of(&CHART_U, &[]);
    while input.len() + 5 <= 65_536 {
        input.extend(RecordValue::Time(0).to_bytes());
    }
    let records = (65_536 - 40) / 5;
    assert_eq!(
        respond(&input),
        format!("{HEADER}\n0 0 0 {records} 0 0 0 0\n")
    );
    input.resize(65_536, 2);
    assert_eq!(
        respond(&input),
        format!("refused log 30 at {}\n", 5 * records)
    );
}
