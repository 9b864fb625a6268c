//! The live functions: a chart opened, records fed one by one, the standing asked after
//! each; against the reference's monitor, field by field as an image.

use super::{filled, filled_places, BEYOND, PLACES};
use crate::difference::{same, Both, Hex};
use crate::image::{live_bytes, Image, LIVE_HEAD, MONITOR_IMAGE};
use crate::random::{self, Rng};
use crate::seen::Seen;
use lsc::{call, FeedRefusal, LiveMonitor};
use lsc_reference::log::{verdict, write_log};
use lsc_reference::monitor::feed;
use lsc_reference::reader::read_chart;
use lsc_reference::value::*;

/// The kind's name.
pub const NAME: &str = "live";

/// What the safe wrapper says to a record.
type Told = Result<lsc::Answer, FeedRefusal>;

pub fn make(rng: &mut Rng) -> (Vec<u8>, Vec<u8>) {
    if rng.chance(25) {
        return (random::hostile_chart_bytes(rng), Vec::new());
    }
    let size = random::some_size(rng);
    let (bytes, chart) = random::chart(rng, size);
    let count = rng.below(24);
    let feeds = random::feeds(rng, &chart, count);
    (bytes, write_log(&feeds))
}

/// The whole records of some bytes; other bytes are passed over.
pub fn records(bytes: &[u8]) -> Vec<RecordValue> {
    random::log_pieces(bytes)
        .iter()
        .filter_map(|piece| RecordValue::from_bytes(piece))
        .collect()
}

/// Feeds a record to live bytes, whichever of the two it is.
pub fn feed_live(live: &mut [u8], record: &RecordValue) -> u8 {
    match *record {
        RecordValue::Time(time) => call::feed_time(live, time),
        RecordValue::Message { message: m, time } => {
            call::feed_message(live, m.source, m.destination, m.label, time)
        }
    }
}

/// Feeds a message and asks why: the answer, the region and the term, which held something else
/// before.
pub fn feed_why(live: &mut [u8], m: Message, time: u32) -> (u8, u64, u64) {
    let (mut region, mut term) = (77, 78);
    let answer = call::feed_message_why(
        live,
        m.source,
        m.destination,
        m.label,
        time,
        &mut region,
        &mut term,
    );
    (answer, region, term)
}

/// The answer's number, its region and its term.
pub fn why(answer: &Answer) -> (u8, u64, u64) {
    let Cause { region, term } = answer.cause();
    (answer.number(), region.into(), term.into())
}

/// `lsc_feed_message_why` on a copy of live bytes: the same answer and bytes, and the cause.
pub fn check_why(
    before: &[u8],
    record: &RecordValue,
    answer: &Answer,
    after: &[u8],
) -> Result<(), Both> {
    let RecordValue::Message { message, time } = *record else {
        return Ok(());
    };
    let mut live = before.to_vec();
    let said = feed_why(&mut live, message, time);
    let wanted = (why(answer), Hex(after));
    same("feeding and asking why", (said, Hex(&live)), wanted)
}

/// The same through the safe wrapper, which `told` the answer alone.
fn check_safe_why(
    mut monitor: LiveMonitor,
    record: &RecordValue,
    answer: &Answer,
    told: Told,
    after: &LiveMonitor,
) -> Result<(), Both> {
    let RecordValue::Message { message: m, time } = *record else {
        return Ok(());
    };
    let said = monitor.feed_message_why(m.source, m.destination, m.label, time);
    let Cause { region, term } = answer.cause();
    let cause = (region != 0).then_some(lsc::Cause { region, term });
    let wanted = (told.map(|answer| (answer, cause)), after);
    same("the safe cause", (said, &monitor), wanted)
}

/// Feeds a record through the safe wrapper.
fn feed_safe(monitor: &mut LiveMonitor, record: &RecordValue) -> Told {
    match *record {
        RecordValue::Time(time) => monitor.feed_time(time),
        RecordValue::Message { message: m, time } => {
            monitor.feed_message(m.source, m.destination, m.label, time)
        }
    }
}

/// The number of what the wrapper told, and the break.
fn safe_number(told: Told) -> (u8, Option<(u32, u8)>) {
    match told {
        Err(refusal) => (refusal.number(), None),
        Ok(lsc::Answer::Broken { record, reason }) => (1, Some((record, reason.number()))),
        Ok(lsc::Answer::Kept) => (2, None),
        Ok(lsc::Answer::Dropped) => (3, None),
        Ok(lsc::Answer::Entered) => (4, None),
        Ok(lsc::Answer::Moved) => (5, None),
        Ok(lsc::Answer::Quiet) => (6, None),
    }
}

/// The eight numbers of a fit monitor.
pub fn standing_numbers(chart: &ChartValue, monitor: &MonitorValue) -> [u64; PLACES] {
    verdict(chart, monitor).numbers().map(u64::from)
}

/// `lsc_standing` on live bytes: the eight numbers or the refusal, and the places beyond.
pub fn check_standing(
    live: &[u8],
    expected: Result<[u64; PLACES], u8>,
    seen: &mut Seen,
) -> Result<(), Both> {
    let mut out = filled_places(PLACES + BEYOND);
    let answer = call::standing(live, &mut out);
    let mut wanted = filled_places(PLACES + BEYOND);
    if let Ok(numbers) = expected {
        wanted[..PLACES].copy_from_slice(&numbers);
    }
    let number = expected.err().unwrap_or(0);
    same("standing", (answer, out), (number, wanted))?;
    match expected {
        Ok(numbers) => seen.coverage.standing(numbers[0] as u8),
        Err(number) => seen.coverage.refusal(number),
    }
    // The bytes are looked at first: 20 and 21 go before 12.
    let number = expected.err().unwrap_or(12);
    for places in [0, 6, PLACES - 1] {
        let mut out = filled_places(places);
        let answer = call::standing(live, &mut out);
        let wanted = filled_places(places);
        same("standing in a short out", (answer, out), (number, wanted))?;
        seen.coverage.refusal(number);
    }
    Ok(())
}

/// `lsc_open` with room for all, too little room, and room to spare.
fn check_open(
    chart: &[u8],
    read: &Result<ChartValue, (u8, usize)>,
    seen: &mut Seen,
) -> Result<Vec<u8>, Both> {
    let size = LIVE_HEAD + chart.len();
    same("live size", call::live_size(chart.len()), size)?;
    for room in [0, size / 2, size - 1] {
        let (mut live, mut at) = (filled(room), 77);
        let answer = call::open(chart, &mut live, &mut at);
        let (number, place) = read.err().unwrap_or((12, size));
        let wanted = (number, place as u64, Hex(&filled(room)));
        same("opening in a short live", (answer, at, Hex(&live)), wanted)?;
        seen.coverage.refusal(number);
    }
    let (mut live, mut at) = (filled(size + BEYOND), 77);
    let answer = call::open(chart, &mut live, &mut at);
    let mut wanted = filled(size + BEYOND);
    let (number, place) = match read {
        Err((number, offset)) => (*number, *offset),
        Ok(_) => {
            wanted[..size].copy_from_slice(&live_bytes(chart, &MonitorValue::ZERO));
            (0, size)
        }
    };
    let wanted = (number, place as u64, Hex(&wanted));
    same("opening", (answer, at, Hex(&live)), wanted)?;
    Ok(live)
}

pub fn compare(chart: &[u8], log: &[u8], seen: &mut Seen) -> Result<(), Both> {
    let read = read_chart(chart);
    let mut live = check_open(chart, &read, seen)?;
    let safe = LiveMonitor::open(chart);
    let fault = safe.as_ref().err().map(|r| (r.number, r.offset));
    same("the safe open", fault, read.err())?;
    if let Err(fault) = read {
        seen.coverage.refused_chart(NAME, chart, fault);
    }
    let (Ok(value), Ok(mut safe)) = (read, safe) else {
        return Ok(());
    };
    let mut monitor = MonitorValue::ZERO;
    check_standing(&live, Ok(standing_numbers(&value, &monitor)), seen)?;
    for record in records(log) {
        let (answer, after) = feed(&value, monitor, record);
        let mut wanted = live_bytes(chart, &after);
        wanted.extend(&live[wanted.len()..]);
        let before = live.clone();
        let said = feed_live(&mut live, &record);
        let fields = MonitorValue::from_image(&live[..MONITOR_IMAGE]);
        same("feeding", (said, fields), (answer.number(), Some(after)))?;
        same("bytes after feeding", Hex(&live), Hex(&wanted))?;
        check_why(&before, &record, &answer, &wanted)?;
        seen.coverage.fed(NAME, &value, &monitor, &answer, &after);
        let numbers = standing_numbers(&value, &after);
        check_standing(&live, Ok(numbers), seen)?;
        seen.coverage.stood(NAME, &value, &after);

        let twin = safe.clone();
        let told = feed_safe(&mut safe, &record);
        let (said, broken) = safe_number(told);
        let wanted = (answer.number(), Hex(&live[..LIVE_HEAD + chart.len()]));
        same("the safe feed", (said, Hex(safe.as_bytes())), wanted)?;
        if let Answer::Broken(known) = answer {
            let wanted = (known.record, known.reason.number());
            same("the safe break", broken, Some(wanted))?;
        }
        check_safe_why(twin, &record, &answer, told, &safe)?;
        let words: Vec<String> = numbers.iter().map(u64::to_string).collect();
        let text = safe.standing().to_string();
        same("the safe standing", text, words.join(" "))?;
        monitor = after;
    }
    let again = LiveMonitor::from_bytes(safe.clone().into_bytes());
    same("taken up again", again, Ok::<_, FeedRefusal>(safe))
}
