//! Chart and monitor values as flat images, the form in which the library has them in live
//! bytes and in its functions for tests.
//!
//! An image is a fixed row of bytes, numbers most significant byte first, that holds a
//! value and nothing else.

use lsc_reference::live::{monitor_image, monitor_of};
use lsc_reference::value::*;

pub use lsc_reference::live::{live_bytes, LIVE_HEAD, MONITOR_IMAGE};

/// Bytes of a region's image.
const REGION_IMAGE: usize = 42;
/// Where a region's image has the mark to rest on; the byte after it is 0 (V15).
const MARK: usize = 8;
/// Bytes of a chart's image.
pub const CHART_IMAGE: usize = 4 + MAX_REGIONS * REGION_IMAGE;

/// Where a chart's image has the mark to rest on of the region at a place.
pub fn mark_place(region: usize) -> usize {
    4 + region * REGION_IMAGE + MARK
}

/// A value that has an image.
pub trait Image: Sized {
    type Bytes;

    fn to_image(&self) -> Self::Bytes;

    /// The value of an image; none if the length is wrong or a byte has no value.
    fn from_image(image: &[u8]) -> Option<Self>;
}

impl Image for ChartValue {
    type Bytes = [u8; CHART_IMAGE];

    fn to_image(&self) -> [u8; CHART_IMAGE] {
        let mut image = [0; CHART_IMAGE];
        image[..4].copy_from_slice(&[self.lines, self.clocks, self.prechart, self.count]);
        let places = image[4..].chunks_exact_mut(REGION_IMAGE);
        for (region, place) in self.regions.iter().zip(places) {
            put_region(region, place);
        }
        image
    }

    fn from_image(image: &[u8]) -> Option<ChartValue> {
        if image.len() != CHART_IMAGE {
            return None;
        }
        let mut chart = ChartValue {
            lines: image[0],
            clocks: image[1],
            prechart: image[2],
            count: image[3],
            ..ChartValue::ZERO
        };
        let places = image[4..].chunks_exact(REGION_IMAGE);
        for (region, place) in chart.regions.iter_mut().zip(places) {
            *region = get_region(place)?;
        }
        Some(chart)
    }
}

fn put_region(region: &RegionValue, place: &mut [u8]) {
    match region.event {
        EventValue::Message(message) => {
            place[0] = 1;
            place[1..5].copy_from_slice(&message.to_bytes());
        }
        EventValue::Plain(lines) => {
            place[0] = 0;
            place[1..3].copy_from_slice(&lines.to_be_bytes());
        }
    }
    place[5] = u8::from(region.hot);
    place[6] = region.resets;
    place[7] = region.term_count;
    place[MARK] = u8::from(region.rest);
    for (term, part) in region.terms.iter().zip(place[10..].chunks_exact_mut(8)) {
        match term.left {
            LeftValue::Clock(clock) => part[..2].copy_from_slice(&[0, clock]),
            LeftValue::Difference(first, second) => {
                part[..3].copy_from_slice(&[1, first, second]);
            }
        }
        part[3] = term.relation;
        part[4..8].copy_from_slice(&term.n.to_be_bytes());
    }
}

/// Inlined as the term's is: a call would copy the value once more, and the benchmark times it.
#[inline]
fn get_region(place: &[u8]) -> Option<RegionValue> {
    let event = match place[..5] {
        [0, high, low, 0, 0] => EventValue::Plain(u16::from_be_bytes([high, low])),
        [1, m0, m1, m2, m3] => EventValue::Message(Message::from_bytes([m0, m1, m2, m3])),
        _ => return None,
    };
    if place[5] > 1 || place[MARK] > 1 || place[MARK + 1] != 0 {
        return None;
    }
    let mut region = RegionValue {
        event,
        hot: place[5] == 1,
        resets: place[6],
        term_count: place[7],
        rest: place[MARK] == 1,
        ..RegionValue::ZERO
    };
    for (term, part) in region.terms.iter_mut().zip(place[10..].chunks_exact(8)) {
        *term = get_term(part)?;
    }
    Some(region)
}

#[inline]
fn get_term(part: &[u8]) -> Option<TermValue> {
    let left = match part[..3] {
        [0, clock, 0] => LeftValue::Clock(clock),
        [1, first, second] => LeftValue::Difference(first, second),
        _ => return None,
    };
    Some(TermValue {
        left,
        relation: part[3],
        n: i32::from_be_bytes([part[4], part[5], part[6], part[7]]),
    })
}

impl Image for MonitorValue {
    type Bytes = [u8; MONITOR_IMAGE];

    #[inline]
    fn to_image(&self) -> [u8; MONITOR_IMAGE] {
        monitor_image(self)
    }

    #[inline]
    fn from_image(image: &[u8]) -> Option<MonitorValue> {
        monitor_of(image)
    }
}

#[cfg(test)]
mod tests {
    use super::*;
    use crate::fast;
    use crate::random::{self, Rng};
    use lsc_reference::well_formed;

    /// Changes one bit of an image.
    fn change(rng: &mut Rng, image: &mut [u8]) {
        let place = rng.below(image.len());
        image[place] ^= 1 << rng.below(8);
    }

    /// Every byte changed gives another value or none.
    #[test]
    fn images_are_exact() {
        let mut rng = Rng::new(6);
        for _ in 0..20_000 {
            let chart = random::chart_value(&mut rng);
            let mut image = chart.to_image();
            change(&mut rng, &mut image);
            if let Some(other) = ChartValue::from_image(&image) {
                assert_ne!(other, chart);
                assert_eq!(other.to_image(), image);
                assert_eq!(well_formed::is_given(&other), fast::is_given(&other));
            }
            let monitor = random::monitor_value(&mut rng, &chart);
            let mut image = monitor.to_image();
            change(&mut rng, &mut image);
            let other = MonitorValue::from_image(&image).unwrap();
            assert_ne!(other, monitor);
            assert_eq!(other.to_image(), image);
        }
    }

    #[test]
    fn zeros_are_an_image_of_their_length() {
        let chart = ChartValue::from_image(&[0; CHART_IMAGE]);
        assert_eq!(chart, Some(ChartValue::ZERO));
        assert_eq!(ChartValue::from_image(&[0; CHART_IMAGE - 1]), None);
        let monitor = MonitorValue::from_image(&[0; MONITOR_IMAGE]);
        assert_eq!(monitor, Some(MonitorValue::ZERO));
        assert_eq!(MonitorValue::from_image(&[0; MONITOR_IMAGE + 1]), None);
    }
}
