//! Watches messages as they come: after an undo both headings and references are restored, in
//! any order, in at most 40 ticks. After each it tells which messages would break the chart now:
//! the buttons that a drafting window greys out.
//!
//! `cargo run --example watch`. `watch.c` does the same in C.

use lsc::{FeedRefusal, Foreseen, LiveMonitor};
use std::error::Error;
use std::io::{self, Write};

/// Chart U: 4 lines, 1 clock. An example stands alone, so its bytes are written out.
pub const CHART: [u8; 38] = [
    0x10, 4, 1, // heading
    0x20, 0, 1, 0, 1, 0x40, 1,    // prechart: undo, 0 to 1, label 1, resets clock 0
    0x50, // the main chart starts
    0x20, 1, 0, 0, 2, 0x30, 0, 1, 0, 0, 0, 40, 0x32, // headings, 1 to 0, clock 0 <= 40, hot
    0x20, 2, 3, 0, 3, 0x30, 0, 1, 0, 0, 0, 40, 0x32, // references, 2 to 3, likewise
    0x7F,
];

const UNDO: (&str, u8, u8, u16) = ("undo", 0, 1, 1);
const HEADINGS: (&str, u8, u8, u16) = ("headings", 1, 0, 2);
const REFERENCES: (&str, u8, u8, u16) = ("references", 2, 3, 3);

/// The messages' names in the order of the chart's regions.
const BUTTONS: [&str; 3] = [UNDO.0, HEADINGS.0, REFERENCES.0];

/// The names of the messages that would break the chart at a moment, or that there are none.
fn grey(monitor: &LiveMonitor, time: u32) -> Result<String, FeedRefusal> {
    let preview = monitor.preview(time)?;
    let buttons = BUTTONS.into_iter().zip(preview);
    let breaking: Vec<&str> = buttons
        .filter(|(_, foreseen)| *foreseen == Some(Foreseen::Broken))
        .map(|(name, _)| name)
        .collect();
    Ok(match breaking.len() {
        0 => "none".to_string(),
        _ => breaking.join(" "),
    })
}

/// Feeds the messages and writes what the monitor says to each.
pub fn watch(out: &mut dyn Write) -> Result<(), Box<dyn Error>> {
    let messages = [
        (UNDO, 100),
        (HEADINGS, 120),
        (REFERENCES, 140),
        (HEADINGS, 150),
        (UNDO, 200),
        (REFERENCES, 199),
        (REFERENCES, 230),
        (HEADINGS, 241),
        (UNDO, 300),
    ];
    let mut monitor = LiveMonitor::open(&CHART)?;
    for ((name, source, destination, label), time) in messages {
        match monitor.feed_message_why(source, destination, label, time) {
            Ok((answer, None)) => write!(out, "{name} at {time}: {answer}")?,
            Ok((answer, Some(cause))) => write!(out, "{name} at {time}: {answer}, {cause}")?,
            Err(refusal) => write!(out, "{name} at {time}: refused {}", refusal.number())?,
        }
        write!(out, "; standing {}", monitor.standing().standing.number())?;
        match grey(&monitor, time) {
            Ok(names) => writeln!(out, "; grey: {names}")?,
            Err(_) => writeln!(out)?,
        }
    }
    writeln!(
        out,
        "STANDING KEPT DROPPED RECORDS BREAK REASON REGION TERM"
    )?;
    writeln!(out, "{}", monitor.standing())?;
    Ok(())
}

fn main() -> Result<(), Box<dyn Error>> {
    watch(&mut io::stdout())
}
