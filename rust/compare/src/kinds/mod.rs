//! The kinds of comparison. Each makes inputs of two parts and compares both sides on one.

mod bytes;
mod following;
mod live;
mod marks;
mod preview;
mod printing;
mod reading;
mod rows;
mod save;
mod values;
mod whole;
mod yes_no;

use crate::difference::{Both, Difference};
use crate::random::{shrink, Rng};
use crate::seen::Seen;

pub use bytes::{compare as compare_bytes, NAME as LIVE_BYTES};
pub use following::{compare as compare_feed_log, compare_parts};
pub use following::{NAME as FEED_LOG, PARTS_NAME as FEED_LOG_PARTS};
pub use live::{compare as compare_live, feed_live, NAME as LIVE};
pub use marks::NAME as MARKS;
pub use preview::{compare as compare_preview, NAME as PREVIEW};
pub use printing::{compare as compare_print, NAME as PRINT};
pub use reading::{NAME as READ, READS};
pub use rows::NAME as ROWS;
pub use save::{compare as compare_save, compare_image as compare_save_image};
pub use save::{IMAGE_NAME as SAVE_IMAGE, NAME as SAVE};
pub use values::{compare as compare_values, feed_images, NAME as VALUES};
pub use whole::{compare as compare_judge, NAME as JUDGE};
pub use yes_no::{compare as compare_breaks, IMAGE_NAME as BREAKS_IMAGE, NAME as BREAKS};

/// Makes an input's two parts.
pub type Make = fn(&mut Rng) -> (Vec<u8>, Vec<u8>);

/// Gives an input's two parts to both sides; the first point on which they differ.
pub type Compare = fn(&[u8], &[u8], &mut Seen) -> Result<(), Both>;

/// A kind of comparison.
pub struct Kind {
    pub name: &'static str,
    /// How often it is taken, beside the others.
    pub share: usize,
    /// What the two parts of an input are.
    pub parts: [&'static str; 2],
    pub make: Make,
    pub compare: Compare,
}

/// All kinds.
#[rustfmt::skip]
pub static KINDS: [Kind; 15] = [
    kind(whole::NAME, 34, ["chart", "log"], whole::make, whole::compare),
    kind(printing::NAME, 14, ["nothing", "input"], printing::make, printing::compare),
    kind(values::NAME, 30, ["chart image", "monitor and record"], values::make, values::compare),
    kind(live::NAME, 9, ["chart", "records"], live::make, live::compare),
    kind(bytes::NAME, 10, ["live bytes", "record"], bytes::make, bytes::compare),
    kind(rows::NAME, 3, ["chart", "records"], rows::make, rows::compare),
    kind(reading::NAME, 4, ["log", "place"], reading::make, reading::compare),
    kind(yes_no::NAME, 12, ["chart", "log"], yes_no::make, yes_no::compare),
    kind(yes_no::IMAGE_NAME, 6, ["chart image", "log"], yes_no::make_image, yes_no::compare_image),
    kind(preview::NAME, 5, ["live bytes", "moment"], preview::make, preview::compare),
    kind(save::NAME, 4, ["chart", "another chart"], save::make, save::compare),
    kind(save::IMAGE_NAME, 3, ["chart image", "buffer"], save::make_image, save::compare_image),
    kind(marks::NAME, 3, ["chart", "log"], marks::make, marks::compare),
    kind(FEED_LOG, 10, ["live bytes", "kind and log"], following::make, following::compare),
    kind(FEED_LOG_PARTS, 5, ["live bytes", "kind and log"], following::make, compare_parts),
];

/// The names of those in which a monitor takes records that are counted.
pub fn taking() -> Vec<&'static str> {
    let names = KINDS.iter().map(|kind| kind.name);
    names
        .filter(|name| ![READ, SAVE, SAVE_IMAGE, MARKS, FEED_LOG_PARTS].contains(name))
        .collect()
}

const fn kind(
    name: &'static str,
    share: usize,
    parts: [&'static str; 2],
    make: Make,
    compare: Compare,
) -> Kind {
    Kind {
        name,
        share,
        parts,
        make,
        compare,
    }
}

/// Longer inputs are not shrunk piece by piece: it would take too long.
const SHRINKABLE: usize = 4_000;

impl Kind {
    /// Makes an input and compares; a differing input is shrunk first.
    pub fn try_one(&self, rng: &mut Rng, seen: &mut Seen) -> Result<(), Box<Difference>> {
        let (first, second) = (self.make)(rng);
        let Err(both) = (self.compare)(&first, &second, seen) else {
            return Ok(());
        };
        let small = self.smaller(&first, &second);
        // An input that does not differ a second time is shown as it came.
        let ((first, second), both) = match (self.compare)(&small.0, &small.1, &mut Seen::default())
        {
            Err(both) => (small, both),
            Ok(()) => ((first, second), both),
        };
        Err(Box::new(Difference {
            kind: self.name,
            origin: None,
            parts: [(self.parts[0], first), (self.parts[1], second)],
            both,
        }))
    }

    /// A smaller input that still differs.
    fn smaller(&self, first: &[u8], second: &[u8]) -> (Vec<u8>, Vec<u8>) {
        let mut aside = Seen::default();
        let mut fails =
            |first: &[u8], second: &[u8]| (self.compare)(first, second, &mut aside).is_err();
        let mut second = second;
        while second.len() > SHRINKABLE && fails(first, &second[..second.len() / 2]) {
            second = &second[..second.len() / 2];
        }
        if first.len() + second.len() > SHRINKABLE {
            return (first.to_vec(), second.to_vec());
        }
        shrink(first, second, &mut fails)
    }
}

/// The places of a verdict.
const PLACES: usize = 8;

/// Bytes, or places, after the part of a buffer that a function may write.
const BEYOND: usize = 5;

/// A buffer with contents that are easy to miss if changed.
fn filled(length: usize) -> Vec<u8> {
    (0..length).map(|place| (place * 37 + 11) as u8).collect()
}

/// Places for numbers, filled likewise.
fn filled_places(length: usize) -> Vec<u64> {
    (0..length)
        .map(|place| 0xA5A5_0000_5A5A_0000 + place as u64)
        .collect()
}

#[cfg(test)]
mod tests {
    use super::*;
    use crate::difference::same;
    use lsc_reference::log::judge;
    use lsc_reference::reader::read_chart;

    /// A "library" that never sees a break: the harness must find that and shrink it.
    fn forgets_breaks(chart: &[u8], log: &[u8], _: &mut Seen) -> Result<(), Both> {
        let reason = read_chart(chart)
            .ok()
            .and_then(|chart| judge(&chart, log).ok())
            .and_then(|verdict| verdict.broken)
            .map(|known| known.reason);
        same("reason", None, reason)
    }

    #[test]
    fn a_difference_is_found_and_shrunk() {
        let kind = Kind {
            compare: forgets_breaks,
            ..KINDS[0]
        };
        let mut rng = Rng::new(5);
        let found = (0..10_000)
            .find_map(|_| kind.try_one(&mut rng, &mut Seen::default()).err())
            .expect("some log breaks its chart");
        assert!(found.parts[0].1.len() <= 40, "{found}");
        assert!(found.parts[1].1.len() <= 27, "{found}");
        let text = found.numbered(5, 7).to_string();
        assert!(text.starts_with("difference in judge, reason (seed 5, input 7, shrunk)"));
    }
}
