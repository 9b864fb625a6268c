//! Shrinking an input that fails.

use super::pieces::{commands, log_pieces};

/// Removes commands, records and bytes, and lowers bytes, as long as the input still fails.
pub fn shrink(
    chart: &[u8],
    log: &[u8],
    fails: &mut dyn FnMut(&[u8], &[u8]) -> bool,
) -> (Vec<u8>, Vec<u8>) {
    let mut chart = chart.to_vec();
    let mut log = log.to_vec();
    loop {
        let before = (chart.clone(), log.clone());
        log = remove_pieces(log_pieces(&log), &mut |part| fails(&chart, part));
        chart = remove_pieces(commands(&chart), &mut |part| fails(part, &log));
        log = remove_pieces(single_bytes(&log), &mut |part| fails(&chart, part));
        chart = remove_pieces(single_bytes(&chart), &mut |part| fails(part, &log));
        lower_bytes(&mut log, &mut |part| fails(&chart, part));
        lower_bytes(&mut chart, &mut |part| fails(part, &log));
        if before == (chart.clone(), log.clone()) {
            return before;
        }
    }
}

fn single_bytes(bytes: &[u8]) -> Vec<Vec<u8>> {
    bytes.iter().map(|&byte| vec![byte]).collect()
}

/// Leaves out runs of pieces, long ones first.
fn remove_pieces(mut pieces: Vec<Vec<u8>>, fails: &mut dyn FnMut(&[u8]) -> bool) -> Vec<u8> {
    let mut run = pieces.len();
    while run > 0 {
        let mut from = 0;
        while from < pieces.len() {
            let to = (from + run).min(pieces.len());
            let mut fewer = pieces[..from].to_vec();
            fewer.extend_from_slice(&pieces[to..]);
            if fails(&fewer.concat()) {
                pieces = fewer;
            } else {
                from = to;
            }
        }
        run /= 2;
    }
    pieces.concat()
}

/// Puts smaller numbers in the bytes' places.
fn lower_bytes(bytes: &mut [u8], fails: &mut dyn FnMut(&[u8]) -> bool) {
    for place in 0..bytes.len() {
        let byte = bytes[place];
        for smaller in [0, 1, 2, byte / 2, byte.saturating_sub(1)] {
            if smaller < byte {
                bytes[place] = smaller;
                if fails(bytes) {
                    break;
                }
                bytes[place] = byte;
            }
        }
    }
}

#[cfg(test)]
mod tests {
    use super::*;
    use crate::random::{chart, log_bytes, Rng, Size};
    use lsc_reference::log::judge;
    use lsc_reference::reader::read_chart;
    use lsc_reference::value::Reason;

    /// A "failure": a log whose verdict is broken by a condition.
    fn fails(chart: &[u8], log: &[u8]) -> bool {
        read_chart(chart)
            .ok()
            .and_then(|chart| judge(&chart, log).ok())
            .and_then(|verdict| verdict.broken)
            .is_some_and(|known| known.reason == Reason::ConditionFails)
    }

    #[test]
    fn shrinking_finds_a_small_case() {
        let mut rng = Rng::new(8);
        let mut found = 0;
        while found < 20 {
            let (bytes, value) = chart(&mut rng, Size::Small);
            let log = log_bytes(&mut rng, &value, 20);
            if !fails(&bytes, &log) {
                continue;
            }
            found += 1;
            let (small_chart, small_log) = shrink(&bytes, &log, &mut fails);
            assert!(fails(&small_chart, &small_log));
            let regions = commands(&small_chart)
                .iter()
                .filter(|command| matches!(command[0], 0x20 | 0x21))
                .count();
            assert!(regions <= 3, "{small_chart:02X?}");
            assert!(small_log.len() <= 27, "{small_log:02X?}");
        }
    }
}
