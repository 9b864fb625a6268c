//! Other bytes of a chart, and charts that differ from it in little.

use super::pieces::commands;
use super::Rng;

fn is_term(command: &[u8]) -> bool {
    matches!(command[0], 0x30 | 0x31)
}

/// Whether the command belongs to a region that was started before.
fn is_attribute(command: &[u8]) -> bool {
    is_term(command) || matches!(command[0], 0x32 | 0x33 | 0x40)
}

/// The same chart's bytes, mostly others: in each region hot, resets and the mark to rest on stand
/// anywhere, the terms in their order (B5, B7).
pub fn reordered(rng: &mut Rng, bytes: &[u8]) -> Vec<u8> {
    let mut parts = commands(bytes);
    for _ in 0..2 * parts.len() {
        let place = rng.below(parts.len());
        if let Some([one, other]) = parts.get_mut(place..place + 2) {
            let attributes = is_attribute(one) && is_attribute(other);
            if attributes && !(is_term(one) && is_term(other)) {
                std::mem::swap(one, other);
            }
        }
    }
    parts.concat()
}

/// The chart's bytes without its marks to rest on.
pub fn unmarked(bytes: &[u8]) -> Vec<u8> {
    let mut parts = commands(bytes);
    parts.retain(|part| part[0] != 0x33);
    parts.concat()
}

/// The bytes with an operand changed in one bit, with a command left out, or with two neighbours
/// exchanged; mostly another chart's.
pub fn altered(rng: &mut Rng, bytes: &[u8]) -> Vec<u8> {
    let mut parts = commands(bytes);
    if parts.is_empty() {
        return Vec::new();
    }
    // Now and then in the heading or just behind it.
    let near = if rng.chance(20) { 3 } else { parts.len() };
    let place = rng.below(near.min(parts.len()));
    let part = &mut parts[place];
    match rng.below(4) {
        0 | 1 if part.len() > 1 => {
            let operand = 1 + rng.below(part.len() - 1);
            part[operand] ^= 1 << rng.below(8);
        }
        2 => {
            parts.remove(place);
        }
        _ if place + 1 < parts.len() => parts.swap(place, place + 1),
        _ => {}
    }
    parts.concat()
}

#[cfg(test)]
mod tests {
    use super::*;
    use crate::random::{chart, some_size};
    use crate::rested::without_marks;
    use lsc_reference::reader::read_chart;

    #[test]
    fn unmarked_bytes_are_the_chart_without_marks() {
        let mut rng = Rng::new(15);
        let mut marked = 0;
        for _ in 0..500 {
            let size = some_size(&mut rng);
            let (bytes, value) = chart(&mut rng, size);
            let bare = read_chart(&unmarked(&bytes));
            assert_eq!(bare, Ok(without_marks(&value)), "{bytes:02X?}");
            marked += usize::from(bare != Ok(value));
        }
        assert!(marked > 200, "{marked}");
        // A label and a set that have the mark's byte.
        let bytes = [0x10, 6, 0, 0x50, 0x20, 0, 1, 0x33, 0x33, 0x33, 0x7F];
        assert_eq!(unmarked(&bytes), [&bytes[..9], &[0x7F]].concat());
    }

    #[test]
    fn reordered_bytes_are_the_same_chart() {
        let mut rng = Rng::new(12);
        let (mut others, mut altered_charts) = (0, 0);
        for _ in 0..2_000 {
            let size = some_size(&mut rng);
            let (bytes, value) = chart(&mut rng, size);
            let other = reordered(&mut rng, &bytes);
            assert_eq!(read_chart(&other), Ok(value));
            others += usize::from(other != bytes);
            let near = read_chart(&altered(&mut rng, &bytes));
            altered_charts += usize::from(near.is_ok_and(|near| near != value));
        }
        assert!(others > 500, "{others}");
        assert!(altered_charts > 500, "{altered_charts}");
        assert_eq!(reordered(&mut rng, &[]), []);
        assert_eq!(altered(&mut rng, &[]), []);
    }
}
