//! Bytes of every kind, well-formed, damaged and put together with little care.

use super::charts::{
    chart, chart_bytes, message_command, plain_command, some_set, some_size, term_command,
};
use super::logs::feeds;
use super::pieces::{commands, log_pieces};
use super::stamps::{log_bytes, raw_log_bytes};
use super::Rng;
use lsc_reference::log::write_log;
use lsc_reference::print::input_of;
use lsc_reference::record::{LogRecord, RawRecord, Stamp};
use lsc_reference::value::*;

/// A random command, its operands mostly within the heading's range.
fn any_command(rng: &mut Rng, lines: u8, clocks: u8) -> Vec<u8> {
    let in_lines = lines.clamp(2, 16);
    let in_clocks = clocks.clamp(1, 8);
    let mut command = match rng.below(21) {
        0 => vec![0x10, lines, clocks],
        1..=5 => message_command(rng, in_lines, 3),
        6..=8 => plain_command(some_set(rng, in_lines)),
        9..=12 => term_command(rng, in_clocks, false),
        13 => vec![0x32],
        14..=15 => vec![0x33],
        16..=18 => vec![0x40, some_set(rng, in_clocks) as u8],
        19 => vec![0x50],
        _ => vec![0x7F],
    };
    if rng.chance(8) && command.len() > 1 {
        let place = 1 + rng.below(command.len() - 1);
        command[place] = rng.pick(&[0, 1, 4, 5, 8, 9, 16, 17, 255]);
    }
    command
}

/// Commands put together with little care for their places.
fn loose_chart_bytes(rng: &mut Rng) -> Vec<u8> {
    let lines = rng.range(2, 6) as u8;
    let clocks = rng.range(0, 3) as u8;
    let mut bytes = vec![0x10, lines, clocks];
    let mut main = false;
    for _ in 0..rng.below(12) {
        let command = any_command(rng, lines, clocks);
        // Headings and ends in the middle would hide all that follows.
        if matches!(command[0], 0x10 | 0x7F) && rng.chance(85) {
            continue;
        }
        main |= command[0] == 0x50;
        bytes.extend(command);
    }
    if !main && rng.chance(80) {
        bytes.push(0x50);
        bytes.extend(message_command(rng, lines, 3));
    }
    if rng.chance(95) {
        bytes.push(0x7F);
    }
    bytes
}

/// A chart with too many regions, or a region with too many terms.
fn crowded_chart_bytes(rng: &mut Rng) -> Vec<u8> {
    let lines = rng.range(2, 16) as u8;
    let clocks = rng.range(1, 8) as u8;
    let mut bytes = vec![0x10, lines, clocks];
    let total = rng.range(1, 35);
    let prechart = rng.range(0, total);
    for region in 0..total {
        if region == prechart {
            bytes.push(0x50);
        }
        bytes.extend(message_command(rng, lines, 3));
        if rng.chance(5) {
            for _ in 0..rng.range(3, 6) {
                bytes.extend(term_command(rng, clocks, false));
            }
        }
    }
    bytes.push(0x7F);
    bytes
}

/// Changes some bytes: flips, cuts, inserts, doubles, removes, swaps.
pub fn damage(rng: &mut Rng, bytes: &mut Vec<u8>) {
    let length = bytes.len();
    let from = rng.below(length + 1);
    let to = (from + rng.below(10)).min(length);
    match rng.below(9) {
        0 if length > 0 => {
            let place = rng.below(length);
            bytes[place] ^= 1 << rng.below(8);
        }
        1 if length > 0 => {
            let place = rng.below(length);
            bytes[place] = rng.byte();
        }
        2 if length > 0 => {
            let place = rng.below(length);
            bytes[place] = rng.pick(&[
                0, 1, 2, 3, 4, 5, 8, 9, 16, 17, 0x10, 0x20, 0x21, 0x30, 0x31, 0x32, 0x33, 0x40,
                0x50, 0x7F, 0xFF,
            ]);
        }
        3 => bytes.truncate(from),
        4 => bytes.insert(from, rng.byte()),
        5 => {
            let copy = bytes[from..to].to_vec();
            bytes.splice(from..from, copy);
        }
        6 => {
            bytes.drain(from..to);
        }
        7 if length > 1 => {
            let (a, b) = (rng.below(length), rng.below(length));
            bytes.swap(a, b);
        }
        _ => bytes.push(rng.pick(&[0, 1, 2, 3, 4, 0x32, 0x33, 0x50, 0x7F, 0xFF])),
    }
}

/// Deletes, doubles, moves or swaps pieces, or takes one from elsewhere.
fn splice(rng: &mut Rng, pieces: &mut Vec<Vec<u8>>, others: &[Vec<u8>]) {
    if pieces.is_empty() {
        return;
    }
    let place = rng.below(pieces.len());
    let other = rng.below(pieces.len());
    match rng.below(5) {
        0 => {
            pieces.remove(place);
        }
        1 => {
            let copy = pieces[place].clone();
            pieces.insert(other, copy);
        }
        2 => {
            let piece = pieces.remove(place);
            pieces.insert(other.min(pieces.len()), piece);
        }
        3 => pieces.swap(place, other),
        _ if others.is_empty() => {}
        _ => {
            let taken = others[rng.below(others.len())].clone();
            pieces.insert(place, taken);
        }
    }
}

/// Chart bytes of every kind, well-formed or not.
pub fn hostile_chart_bytes(rng: &mut Rng) -> Vec<u8> {
    let size = some_size(rng);
    match rng.below(20) {
        0..=2 => chart_bytes(rng, size),
        3..=8 => {
            let mut parts = commands(&chart_bytes(rng, size));
            let others: Vec<Vec<u8>> = (0..4)
                .map(|_| any_command(rng, parts[0][1], parts[0][2]))
                .collect();
            for _ in 0..1 + rng.below(3) {
                splice(rng, &mut parts, &others);
            }
            parts.concat()
        }
        9..=13 => {
            let mut bytes = chart_bytes(rng, size);
            for _ in 0..1 + rng.below(3) {
                damage(rng, &mut bytes);
            }
            bytes
        }
        14..=17 => loose_chart_bytes(rng),
        18 => crowded_chart_bytes(rng),
        _ => (0..rng.below(20)).map(|_| rng.byte()).collect(),
    }
}

/// Log bytes of every kind, well-formed or not.
pub fn hostile_log_bytes(rng: &mut Rng, chart: &ChartValue) -> Vec<u8> {
    let count = rng.below(20);
    let mut bytes = log_bytes(rng, chart, count);
    match rng.below(5) {
        0 => {}
        1 => {
            let mut parts = log_pieces(&bytes);
            let others = log_pieces(&log_bytes(rng, chart, 3));
            for _ in 0..1 + rng.below(2) {
                splice(rng, &mut parts, &others);
            }
            bytes = parts.concat();
        }
        2 => {
            for _ in 0..1 + rng.below(2) {
                damage(rng, &mut bytes);
            }
        }
        3 => bytes = write_log(&feeds(rng, chart, count)),
        _ => bytes = raw_log_bytes(rng, chart, count),
    }
    bytes
}

/// An input for the printing program, of every kind.
pub fn hostile_input(rng: &mut Rng) -> Vec<u8> {
    let size = some_size(rng);
    let (chart_bytes, chart) = chart(rng, size);
    let log = hostile_log_bytes(rng, &chart);
    match rng.below(100) {
        0..=54 => input_of(&chart_bytes, &log),
        55..=84 => input_of(&hostile_chart_bytes(rng), &log),
        85..=94 => {
            let mut input = input_of(&chart_bytes, &log);
            damage(rng, &mut input);
            input
        }
        95..=96 => (0..rng.below(5)).map(|_| rng.byte()).collect(),
        _ => {
            // About the longest input: 65,536 bytes are taken, one more is not.
            let mut input = input_of(&chart_bytes, &[]);
            let total = 65_530 + rng.below(10);
            let raw = RawRecord {
                message: None,
                stamp: Stamp(7),
            };
            let plain = LogRecord::Plain(RecordValue::Time(7));
            let record = rng.pick(&[plain, LogRecord::Raw(raw)]).to_bytes();
            while input.len() + record.len() <= total {
                input.extend(&record);
            }
            if rng.chance(50) {
                input.resize(total, 2);
            }
            input
        }
    }
}
