//! Chart U and a chart that may rest, the examples over them, the widest and the longest chart, for
//! every test that wants them.

use crate::value::{Message, RecordValue};

/// Chart U (X1): once undo is seen, headings and references are owed, each at most 40 ticks
/// later.
pub const CHART_U: [u8; 38] = [
    0x10, 4, 1, // 4 lines, 1 clock
    0x20, 0, 1, 0, 1, 0x40, 1,    // prechart: undo resets clock 0
    0x50, // the main chart starts
    0x20, 1, 0, 0, 2, 0x30, 0, 1, 0, 0, 0, 40, 0x32, // headings, clock 0 <= 40, hot
    0x20, 2, 3, 0, 3, 0x30, 0, 1, 0, 0, 0, 40, 0x32, // references likewise
    0x7F,
];

/// A chart that may rest (C20), the one of the sample `undo_paused`: undo brings headings back, and
/// the list of references is locked and released; then nothing need happen until the user confirms,
/// which brings references back, at most 40 ticks later.
pub const PAUSED: [u8; 57] = [
    0x10, 4, 1, // 4 lines, 1 clock
    0x20, 0, 1, 0, 1, 0x40, 1,    // prechart: undo resets clock 0
    0x50, // the main chart starts
    0x20, 1, 0, 0, 2, 0x30, 0, 1, 0, 0, 0, 40, 0x32, 0x33, // headings, hot, cold to rest on
    0x20, 2, 3, 0, 3, // the list is locked
    0x20, 2, 3, 0, 4, 0x33, // it is released, cold to rest on
    0x20, 0, 1, 0, 5, 0x40, 1, // the user confirms, which resets clock 0
    0x20, 2, 0, 0, 6, 0x30, 0, 1, 0, 0, 0, 40, 0x32, // references, hot
    0x7F,
];

/// A chart with the widest heading, its last line, all its clocks and lines, the highest
/// label and the lowest number.
pub const WIDEST: [u8; 23] = [
    0x10, 16, 8, 0x50, 0x20, 15, 0, 0xFF, 0xFF, 0x40, 0xFF, 0x21, 0xFF, 0xFF, 0x31, 7, 6, 4, 0x80,
    0, 0, 0, 0x7F,
];

/// A chart of 1,317 bytes, as long as one can be (D6): 32 main regions of 41 bytes, in each a
/// message, four terms on two clocks, hot, resets, the mark to rest on. It is in the order that it
/// is saved in.
pub fn longest() -> Vec<u8> {
    let mut bytes = vec![0x10, 16, 8, 0x50];
    for place in 0..32 {
        bytes.extend([0x20, place % 16, (place + 1) % 16, 0xAB, place]);
        for clock in 0..4 {
            bytes.extend([0x31, clock, 7, clock, 0x80, clock, place, 0xFF]);
        }
        bytes.extend([0x32, 0x40, 0xFF, 0x33]);
    }
    bytes.push(0x7F);
    bytes
}

/// A message at a time.
pub const fn message(source: u8, destination: u8, label: u16, time: u32) -> RecordValue {
    let message = Message {
        source,
        destination,
        label,
    };
    message.at(time)
}

/// Chart U's undo at a time.
pub const fn undo(time: u32) -> RecordValue {
    message(0, 1, 1, time)
}

/// Chart U's headings at a time.
pub const fn headings(time: u32) -> RecordValue {
    message(1, 0, 2, time)
}

/// Chart U's references at a time.
pub const fn references(time: u32) -> RecordValue {
    message(2, 3, 3, time)
}

/// X3 to X11: a log's records, and the verdict's line or the refusal's.
pub const OVER_CHART_U: [(&[RecordValue], &str); 9] = [
    (
        &[undo(100), references(120), headings(140)],
        "0 1 0 3 0 0 0 0",
    ),
    (
        &[undo(100), references(120), headings(141)],
        "3 0 0 3 3 2 2 1",
    ),
    (&[undo(100), headings(120)], "2 0 0 2 0 0 0 0"),
    (
        &[undo(100), headings(120), headings(130)],
        "3 0 0 3 3 1 0 0",
    ),
    (&[undo(100), undo(110)], "3 0 0 2 2 1 0 0"),
    (&[headings(5)], "0 0 1 1 0 0 0 0"),
    (&[undo(100), message(3, 2, 3, 110)], "2 0 0 2 0 0 0 0"),
    (&[], "0 0 0 0 0 0 0 0"),
    (&[undo(100), undo(99)], "refused log 22 at 9"),
];

/// Logs over the chart that may rest, and the verdict's line; `examples/README.md` says why.
pub const OVER_PAUSED: [(&[RecordValue], &str); 9] = [
    (&[undo(100)], "2 0 0 1 0 0 0 0"),
    (&[undo(100), headings(120)], "2 0 0 2 0 0 0 0"),
    (&[undo(100), headings(120), LOCKED], "2 0 0 3 0 0 0 0"),
    (&[undo(100), LOCKED, RELEASED], "2 0 0 3 0 0 0 0"),
    (
        &[undo(100), headings(120), LOCKED, RELEASED],
        "4 0 0 4 0 0 0 0",
    ),
    (
        &[undo(100), headings(120), LOCKED, RELEASED, CONFIRMED],
        "2 0 0 5 0 0 0 0",
    ),
    (
        &[
            undo(100),
            headings(120),
            LOCKED,
            RELEASED,
            CONFIRMED,
            message(2, 0, 6, 90_040),
        ],
        "0 1 0 6 0 0 0 0",
    ),
    (
        &[
            undo(100),
            headings(120),
            LOCKED,
            RELEASED,
            CONFIRMED,
            message(2, 0, 6, 90_041),
        ],
        "3 0 0 6 6 2 6 1",
    ),
    (
        &[undo(100), headings(120), LOCKED, RELEASED, undo(5_000)],
        "3 0 0 5 5 1 0 0",
    ),
];

/// The list locked and released, and the user's word long after.
const LOCKED: RecordValue = message(2, 3, 3, 125);
const RELEASED: RecordValue = message(2, 3, 4, 130);
const CONFIRMED: RecordValue = message(0, 1, 5, 90_000);
