//! The printing program, as a function from its whole input to its text.

use crate::log::judge;
use crate::reader::read_chart;

/// The first line of a verdict (P8, X12).
pub const HEADER: &str = "STANDING KEPT DROPPED RECORDS BREAK REASON REGION TERM";

/// The chart's bytes and the log's in an input (P1), or the input's refusal.
pub fn parts(input: &[u8]) -> Result<(&[u8], &[u8]), u8> {
    // P3.
    if input.len() > 65_536 {
        return Err(40);
    }
    // P4.
    if input.len() < 2 {
        return Err(41);
    }
    let length = usize::from(u16::from_be_bytes([input[0], input[1]]));
    let rest = &input[2..];
    if length > rest.len() {
        return Err(41);
    }
    Ok(rest.split_at(length))
}

/// The text for an input. Refusals are tried in the order of P2.
pub fn respond(input: &[u8]) -> String {
    // P7: offsets count from the part's first byte.
    let (chart, log) = match parts(input) {
        Ok(parts) => parts,
        Err(code) => return refused("input", code, 0),
    };
    let chart = match read_chart(chart) {
        Ok(chart) => chart,
        Err((code, offset)) => return refused("chart", code, offset),
    };
    // P8 to P10.
    match judge(&chart, log) {
        Err((code, offset)) => refused("log", code, offset),
        Ok(verdict) => {
            let words = verdict.numbers().map(|number| number.to_string());
            format!("{HEADER}\n{}\n", words.join(" "))
        }
    }
}

/// The input that holds a chart's bytes and a log's.
pub fn input_of(chart: &[u8], log: &[u8]) -> Vec<u8> {
    let mut input = (chart.len() as u16).to_be_bytes().to_vec();
    input.extend(chart);
    input.extend(log);
    input
}

fn refused(part: &str, code: u8, offset: usize) -> String {
    format!("refused {part} {code} at {offset}\n")
}
