//! The printing program: `lsc_print` and the safe `print` against the reference's text.

use super::filled;
use crate::difference::{same, Both, Hex};
use crate::random::{hostile_input, Rng};
use crate::seen::Seen;
use lsc::call;
use lsc_reference::log::{judge, read_log};
use lsc_reference::print::{parts, respond};
use lsc_reference::reader::read_chart;

/// The kind's name.
pub const NAME: &str = "print";

/// The bytes that `lsc_print` wants for any text.
pub const ROOM: usize = 223;

pub fn make(rng: &mut Rng) -> (Vec<u8>, Vec<u8>) {
    (Vec::new(), hostile_input(rng))
}

pub fn compare(_: &[u8], input: &[u8], seen: &mut Seen) -> Result<(), Both> {
    let text = respond(input);
    for room in [ROOM, ROOM + 31] {
        let mut after = filled(room);
        after[..text.len()].copy_from_slice(text.as_bytes());
        let (mut out, mut written) = (filled(room), 77);
        let answer = call::print(input, &mut out, &mut written);
        let length = (written as usize).min(room);
        let shown = String::from_utf8_lossy(&out[..length]).into_owned();
        let wanted = (0, text.len() as u64, text.clone());
        same("text and length", (answer, written, shown), wanted)?;
        same("all bytes", Hex(&out), Hex(&after))?;
    }
    seen.coverage.printed(&text);
    if let Ok((chart, log)) = parts(input) {
        match read_chart(chart) {
            Ok(chart) => {
                seen.coverage.judged(NAME, log, &judge(&chart, log));
                if let Ok(records) = read_log(log) {
                    let after = seen.coverage.taken(NAME, &chart, &records);
                    seen.coverage.stood(NAME, &chart, &after);
                }
            }
            Err(fault) => seen.coverage.refused_chart(NAME, chart, fault),
        }
    }
    for room in [0, 55, ROOM - 1] {
        let (mut out, mut written) = (filled(room), 77);
        let answer = call::print(input, &mut out, &mut written);
        let wanted = (12, 0, Hex(&filled(room)));
        same("a short out", (answer, written, Hex(&out)), wanted)?;
        seen.coverage.refusal(answer);
    }
    same("the safe print", lsc::print(input), text)
}
