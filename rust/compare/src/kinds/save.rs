//! Saving a chart: `lsc_write`, the safe `write` and `saved`, and `lsc_test_write` against the
//! reference's writer, and what is saved against its reader.

use super::values::some_image;
use super::{filled, BEYOND};
use crate::difference::{same, Both, Hex};
use crate::image::Image;
use crate::random::{self, Rng};
use crate::saved::{self, Saved};
use crate::seen::Seen;
use crate::testing;
use lsc::call::{self, CHART_ROOM};
use lsc::{Part, Refusal, WriteRefusal};
use lsc_reference::reader::read_chart;
use lsc_reference::value::ChartValue;
use lsc_reference::writer::{chart_bytes, write};
use std::hint::black_box;

/// The kind's name.
pub const NAME: &str = "save";

/// The name of the kind whose chart is an image.
pub const IMAGE_NAME: &str = "save by image";

/// A refusal's number, and the offset or the length that comes with it.
type Fault = (u8, usize);

/// A chart and the bytes that the library saved it as.
type Written = (ChartValue, Vec<u8>);

/// Two charts: the second is mostly the first with other bytes, or nearly the first.
pub fn make(rng: &mut Rng) -> (Vec<u8>, Vec<u8>) {
    let one = some_chart(rng);
    let other = match rng.below(12) {
        0..=3 => random::reordered(rng, &one),
        4..=7 => {
            let near = random::altered(rng, &one);
            random::reordered(rng, &near)
        }
        8 | 9 => random::altered(rng, &one),
        10 => some_chart(rng),
        _ => one.clone(),
    };
    (one, other)
}

fn some_chart(rng: &mut Rng) -> Vec<u8> {
    if rng.chance(25) {
        return random::hostile_chart_bytes(rng);
    }
    let size = random::some_size(rng);
    random::chart(rng, size).0
}

/// An image, and a buffer's contents, of about the length needed or of any.
pub fn make_image(rng: &mut Rng) -> (Vec<u8>, Vec<u8>) {
    let (chart, image) = some_image(rng);
    let needed = chart_bytes(&chart).map_or(0, |bytes| bytes.len());
    let room = match rng.below(4) {
        0 => rng.below(CHART_ROOM + BEYOND),
        1 => rng.below(needed + 1),
        _ => (needed + rng.below(5)).saturating_sub(2),
    };
    let contents = (0..room).map(|_| rng.byte()).collect();
    (image, contents)
}

/// What one of the two functions does with a buffer and the number beside.
type Write<'a> = &'a dyn Fn(&mut [u8], &mut u64) -> u8;

/// What the reference does with a buffer.
type Wanted<'a> = &'a dyn Fn(&mut [u8]) -> Result<usize, Fault>;

/// Compares both on a buffer with these contents: the number, what is told beside it, each byte;
/// bytes before and behind, which are not lent, stay. Gives the buffer after it.
fn check(
    point: &'static str,
    said: Write,
    wanted: Wanted,
    contents: &[u8],
) -> Result<Vec<u8>, Both> {
    let lent = BEYOND..BEYOND + contents.len();
    let mut expected = [&filled(BEYOND), contents, &filled(BEYOND)].concat();
    let mut out = expected.clone();
    let (number, told) = match wanted(&mut expected[lent.clone()]) {
        Ok(length) => (0, length),
        Err(fault) => fault,
    };
    let mut at = 77;
    let answer = said(&mut out[lent.clone()], &mut at);
    let wanted = (number, told as u64, Hex(&expected));
    same(point, (answer, at, Hex(&out)), wanted)?;
    Ok(out[lent].to_vec())
}

/// Compares both on buffers about the length needed, and on others, each with contents of its own.
/// Gives the lengths.
fn check_rooms(said: Write, wanted: Wanted, needed: usize) -> Result<Vec<usize>, Both> {
    let about = needed.saturating_sub(2)..=needed + 2;
    let others = [0, 1, needed / 2, needed + BEYOND, CHART_ROOM];
    let rooms: Vec<usize> = about.chain(others).collect();
    for (turn, &room) in rooms.iter().enumerate() {
        check("saving", said, wanted, &filled(turn + room)[turn..])?;
    }
    Ok(rooms)
}

/// Counts what rooms for a chart that needs so many bytes came to, and what is in the chart.
fn count_written(
    kind: &'static str,
    chart: &ChartValue,
    needed: usize,
    rooms: &[usize],
    seen: &mut Seen,
) {
    for &room in rooms {
        if room < needed {
            seen.coverage.refusal(12);
        }
        seen.coverage.saved(kind, saved::room_name(room, needed));
    }
    for name in saved::shape_names(chart, needed) {
        seen.coverage.saved(kind, name);
    }
}

pub fn compare(one: &[u8], other: &[u8], seen: &mut Seen) -> Result<(), Both> {
    let first = check_chart(one, seen)?;
    let second = check_chart(other, seen)?;
    let (Some((chart, bytes)), Some((other_chart, other_bytes))) = (first, second) else {
        return Ok(());
    };
    let equal_charts = chart == other_chart;
    same("bytes that are equal", bytes == other_bytes, equal_charts)?;
    if let Some(name) = saved::pair_name((one, &chart), (other, &other_chart)) {
        seen.coverage.saved(NAME, name);
    }
    Ok(())
}

/// Saving the chart of some bytes, which stay as they are.
fn check_chart(chart: &[u8], seen: &mut Seen) -> Result<Option<Written>, Both> {
    let read = read_chart(chart);
    let wanted = |out: &mut [u8]| read.and_then(|value| write(&value, out));
    let lent = chart.to_vec();
    let said = |out: &mut [u8], at: &mut u64| call::write(black_box(&lent), out, at);
    let needed = wanted(&mut [0; CHART_ROOM]).unwrap_or(0);
    let rooms = check_rooms(&said, &wanted, needed)?;
    check_safe(chart, &wanted, needed)?;
    same("the chart's bytes", Hex(black_box(&lent)), Hex(chart))?;
    match read {
        Ok(value) => {
            let bytes = check("saving", &said, &wanted, &filled(needed))?;
            check_again(&value, &bytes)?;
            count_written(NAME, &value, needed, &rooms, seen);
            for name in saved::order_names(chart, &bytes) {
                seen.coverage.saved(NAME, name);
            }
            Ok(Some((value, bytes)))
        }
        Err((number, offset)) => {
            seen.coverage.refusal(number);
            seen.coverage.refused_chart(NAME, chart, (number, offset));
            seen.coverage.saved(NAME, Saved::Chart(number));
            Ok(None)
        }
    }
}

/// The safe calls: in a buffer that is just long enough, in one that is too short, in their own.
fn check_safe(chart: &[u8], wanted: Wanted, needed: usize) -> Result<(), Both> {
    let refused = |(number, offset): Fault| Refusal {
        part: Part::Chart,
        number,
        offset,
    };
    for room in [needed, needed.saturating_sub(1)] {
        let (mut out, mut expected) = (filled(room), filled(room));
        let answer = wanted(&mut expected).map_err(|fault| match fault {
            (12, needed) => WriteRefusal::TooShort { needed },
            fault => WriteRefusal::Chart(refused(fault)),
        });
        let told = lsc::write(chart, &mut out);
        let expected = (answer, Hex(&expected));
        same("the safe write", (told, Hex(&out)), expected)?;
    }
    let mut expected = filled(needed);
    let answer = wanted(&mut expected).map_err(refused);
    let answer = answer.map(|_| expected);
    same("the safe saved", lsc::saved(chart), answer)
}

/// What was saved is read as the chart (D5); saving it again, or the image, gives the same bytes.
fn check_again(value: &ChartValue, bytes: &[u8]) -> Result<(), Both> {
    same("what was saved, read", read_chart(bytes), Ok(*value))?;
    let contents = filled(bytes.len());
    let wanted = |out: &mut [u8]| {
        out.copy_from_slice(bytes);
        Ok(bytes.len())
    };
    let again = |out: &mut [u8], at: &mut u64| call::write(bytes, out, at);
    check("saving once more", &again, &wanted, &contents)?;
    let image = value.to_image();
    let by_image = |out: &mut [u8], at: &mut u64| testing::write(&image, out, at);
    check("saving by its image", &by_image, &wanted, &contents)?;
    Ok(())
}

pub fn compare_image(image: &[u8], contents: &[u8], seen: &mut Seen) -> Result<(), Both> {
    let chart = ChartValue::from_image(image);
    let wanted = |out: &mut [u8]| chart.map_or(Err((20, 0)), |chart| write(&chart, out));
    let lent = image.to_vec();
    let said = |out: &mut [u8], at: &mut u64| testing::write(black_box(&lent), out, at);
    let commands = chart.as_ref().and_then(chart_bytes);
    let needed = commands.map_or(0, |bytes| bytes.len());
    check("saving", &said, &wanted, contents)?;
    let mut rooms = check_rooms(&said, &wanted, needed)?;
    rooms.push(contents.len());
    same("the image", Hex(black_box(&lent)), Hex(image))?;
    seen.coverage.marked_image(IMAGE_NAME, image);
    match (chart, wanted(&mut [0; CHART_ROOM])) {
        (Some(chart), Ok(length)) => count_written(IMAGE_NAME, &chart, length, &rooms, seen),
        _ => {
            seen.coverage.refusal(20);
            for room in rooms {
                for name in saved::refused_names(image, room) {
                    seen.coverage.saved(IMAGE_NAME, name);
                }
            }
        }
    }
    Ok(())
}
