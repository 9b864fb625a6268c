//! Follows a log as it grows: after an undo both headings and references are restored, in any
//! order, in at most 40 ticks. The log's records have raw stamps, and its bytes come in pieces that
//! end anywhere.
//!
//! `cargo run --example follow`. `follow.c` does the same in C.

use lsc::{Answer, LiveMonitor, LogKind, Stop};
use std::error::Error;
use std::io::{self, Write};

/// Chart U: 4 lines, 1 clock. An example stands alone, so its bytes are written out.
pub const CHART: [u8; 38] = [
    0x10, 4, 1, // heading
    0x20, 0, 1, 0, 1, 0x40, 1,    // prechart: undo, 0 to 1, label 1, resets clock 0
    0x50, // the main chart starts
    0x20, 1, 0, 0, 2, 0x30, 0, 1, 0, 0, 0, 40, 0x32, // headings, 1 to 0, clock 0 <= 40, hot
    0x20, 2, 3, 0, 3, 0x30, 0, 1, 0, 0, 0, 40, 0x32, // references, 2 to 3, likewise
    0x7F,
];

/// Two rounds and a byte behind them. The counter returns to 0 in the first; the second is late.
const LOG: [u8; 51] = [
    3, 0, 1, 0, 1, 0xFF, 0xFF, 0xFF, 0xF0, // undo
    3, 2, 3, 0, 3, 0, 0, 0, 4, // references, 20 ticks later
    3, 1, 0, 0, 2, 0, 0, 0, 24, // headings, 20 ticks later: kept
    4, 0, 0, 0, 30, // time alone
    3, 0, 1, 0, 1, 0, 0, 0, 50, // undo
    3, 1, 0, 0, 2, 0, 0, 0, 91, // headings, 41 ticks later: broken
    9,
];

/// How many bytes come at a time.
const PIECES: [usize; 7] = [4, 9, 14, 0, 9, 3, 12];

/// The number of an answer; 0 if there is none.
fn number(answer: Option<Answer>) -> u8 {
    match answer {
        None => 0,
        Some(Answer::Broken { .. }) => 1,
        Some(Answer::Kept) => 2,
        Some(Answer::Dropped) => 3,
        Some(Answer::Entered) => 4,
        Some(Answer::Moved) => 5,
        Some(Answer::Quiet) => 6,
    }
}

/// Feeds the pieces and writes what each came to.
pub fn follow(out: &mut dyn Write) -> Result<(), Box<dyn Error>> {
    let mut monitor = LiveMonitor::open(&CHART)?;
    let mut kind = LogKind::default();
    let (mut rest, mut waiting) = (&LOG[..], Vec::new());
    for bytes in PIECES {
        let (piece, after) = rest.split_at(bytes);
        rest = after;
        waiting.extend(piece);
        let fed = monitor.feed_log(&mut kind, &waiting);
        // What was not taken waits for more.
        waiting.drain(..fed.place);
        let (taken, kept, last) = (fed.taken, fed.counts.kept, number(fed.last));
        write!(
            out,
            "{bytes} bytes: {taken} taken, {kept} kept, last answer {last}; "
        )?;
        let (stop, held) = (fed.stop, waiting.len());
        writeln!(out, "stopped with {}, {held} waiting", stop.number())?;
        if !matches!(stop, Stop::End | Stop::MoreToCome) {
            break;
        }
    }
    writeln!(
        out,
        "STANDING KEPT DROPPED RECORDS BREAK REASON REGION TERM"
    )?;
    writeln!(out, "{}", monitor.standing())?;
    Ok(())
}

fn main() -> Result<(), Box<dyn Error>> {
    follow(&mut io::stdout())
}
