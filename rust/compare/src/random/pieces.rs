//! Bytes cut into commands and records.

use lsc_reference::command::Command;

/// A chart's bytes cut into commands; bytes that are none stand alone.
pub fn commands(bytes: &[u8]) -> Vec<Vec<u8>> {
    pieces(bytes, |first| {
        Command::of(first).map(|command| 1 + command.operands())
    })
}

/// A log's bytes cut into records; bytes that are none stand alone.
pub fn log_pieces(bytes: &[u8]) -> Vec<Vec<u8>> {
    pieces(bytes, |first| match first {
        1 | 3 => Some(9),
        2 | 4 => Some(5),
        _ => None,
    })
}

fn pieces(bytes: &[u8], length: impl Fn(u8) -> Option<usize>) -> Vec<Vec<u8>> {
    let mut pieces = Vec::new();
    let mut rest = bytes;
    while let Some(&first) = rest.first() {
        let whole = length(first).filter(|&length| length <= rest.len());
        let (piece, after) = rest.split_at(whole.unwrap_or(1));
        pieces.push(piece.to_vec());
        rest = after;
    }
    pieces
}
