//! Live monitors fed from the bytes of a log: `lsc_feed_log` and the safe `feed_log` against the
//! reference's; and a log that comes in parts, against the whole, against its records fed one by
//! one, and against asking and judging.

use super::bytes::some_live;
use super::live::feed_live;
use super::{filled, filled_places, BEYOND, PLACES};
use crate::charts;
use crate::difference::{same, Both, Hex};
use crate::followed::{self, Course, Followed};
use crate::image::live_bytes;
use crate::random::{self, Rng, Size};
use crate::seen::Seen;
use lsc::call::{self, BREAKS_PLACES};
use lsc::{LiveMonitor, Stop};
use lsc_reference::feed_log::{feed_log, Feeding, LogKind, KIND_SIZE, LOG_PLACES};
use lsc_reference::live::held;
use lsc_reference::log::{read_record, Next};
use lsc_reference::monitor::is_fit;
use lsc_reference::record::LogRecord;
use lsc_reference::value::*;
use std::hint::black_box;

/// The kind's name.
pub const NAME: &str = "feed log";

/// The name of the kind in which the log comes in parts.
pub const PARTS_NAME: &str = "feed log in parts";

pub fn make(rng: &mut Rng) -> (Vec<u8>, Vec<u8>) {
    let (live, chart, monitor) = match rng.below(10) {
        0 => some_live(rng),
        _ => sound_live(rng),
    };
    let kind = random::kind_bytes(rng);
    let most = rng.pick(&[3, 12, 24]);
    let count = rng.below(most);
    let log_kind = LogKind::from_bytes(kind).unwrap_or(LogKind::NoRecord);
    let log = random::log_after(rng, &chart, &monitor, log_kind, count);
    (live, [&kind[..], &log].concat())
}

/// The live bytes of a chart and a monitor, often a fresh one, now and then at its limits.
fn sound_live(rng: &mut Rng) -> (Vec<u8>, ChartValue, MonitorValue) {
    let (bytes, chart) = match rng.below(10) {
        0..=3 => charts::some_small(rng),
        4..=7 => random::chart(rng, Size::Small),
        _ => {
            let size = random::some_size(rng);
            random::chart(rng, size)
        }
    };
    let mut monitor = match rng.below(10) {
        0..=3 => MonitorValue::ZERO,
        4..=8 => random::reached_monitor(rng, &chart),
        _ => random::monitor_value(rng, &chart),
    };
    if rng.chance(12) {
        monitor.records = MAX_RECORDS - rng.below(5) as u32;
    }
    if rng.chance(12) {
        monitor.now = monitor.now.max(u32::MAX - rng.below(60) as u32);
    }
    let mut live = live_bytes(&bytes, &monitor);
    if rng.chance(20) {
        live.extend(filled(BEYOND));
    }
    (live, chart, monitor)
}

/// The kind's five bytes, zeros where there are none, and the log.
fn split(second: &[u8]) -> ([u8; KIND_SIZE], &[u8]) {
    let (first, log) = second.split_at(second.len().min(KIND_SIZE));
    let mut kind = [0; KIND_SIZE];
    kind[..first.len()].copy_from_slice(first);
    (kind, log)
}

/// What a call gave: the number, and the live bytes, the kind's and the places after it.
#[derive(PartialEq, Eq)]
struct Given {
    number: u8,
    live: Vec<u8>,
    kind: Vec<u8>,
    out: Vec<u64>,
}

/// A call of the library.
fn proved(live: &[u8], kind: &[u8], log: &[u8], places: usize) -> Given {
    let (mut live, mut kind, mut out) = (live.to_vec(), kind.to_vec(), filled_places(places));
    let number = call::feed_log(&mut live, &mut kind, log, &mut out);
    Given {
        number,
        live,
        kind,
        out,
    }
}

/// Compares a call in these buffers: number, places and every byte lent. Gives what it gave.
fn check(live: &[u8], kind: &[u8], log: &[u8], places: usize) -> Result<Given, Both> {
    let (mut wanted_live, mut wanted_kind) = (live.to_vec(), kind.to_vec());
    let mut wanted = filled_places(places);
    let number = feed_log(&mut wanted_live, &mut wanted_kind, log, &mut wanted);
    let lent = log.to_vec();
    let given = proved(live, kind, black_box(&lent), places);
    let said = (given.number, &given.out);
    same("number and places", said, (number, &wanted))?;
    same("live bytes after", Hex(&given.live), Hex(&wanted_live))?;
    same("kind after", Hex(&given.kind), Hex(&wanted_kind))?;
    same("log after", Hex(black_box(&lent)), Hex(log))?;
    Ok(given)
}

pub fn compare(live: &[u8], second: &[u8], seen: &mut Seen) -> Result<(), Both> {
    let (kind, log) = split(second);
    let given = check(live, &kind, log, LOG_PLACES)?;
    let longer = [&kind[..], &filled(BEYOND)].concat();
    check(live, &longer, log, LOG_PLACES + BEYOND)?;
    for length in 0..KIND_SIZE {
        check(live, &kind[..length], log, LOG_PLACES)?;
        seen.coverage.followed(NAME, Followed::ShortKind(length));
    }
    for places in 0..LOG_PLACES {
        check(live, &kind, log, places)?;
        seen.coverage.followed(NAME, Followed::ShortPlaces(places));
    }
    check(live, &kind[..KIND_SIZE - 1], log, LOG_PLACES - 1)?;
    seen.coverage.refusal(12);
    if !matches!(given.number, 0 | 1) {
        seen.coverage.refusal(given.number);
    }
    check_safe(live, kind, log, &given)?;
    match held(live) {
        Some((_, chart, monitor)) if is_fit(&chart, &monitor) => {
            count_fed(&chart, &monitor, kind, log, seen);
        }
        held => {
            let both = kind[0] > 2;
            let name = match held {
                None if both => "refusal 20, a kind above 2",
                None => "refusal 20",
                Some(_) if both => "refusal 21, both",
                Some(_) => "refusal 21, the monitor",
            };
            seen.coverage.followed(NAME, Followed::Is(name));
            let short = Followed::ShortBefore(given.number);
            seen.coverage.followed(NAME, short);
        }
    }
    Ok(())
}

/// Counts what a fit monitor came to, and what each record did.
fn count_fed(
    chart: &ChartValue,
    monitor: &MonitorValue,
    kind: [u8; KIND_SIZE],
    log: &[u8],
    seen: &mut Seen,
) {
    let Some(before) = LogKind::from_bytes(kind) else {
        let name = Followed::Is("refusal 21, a kind above 2");
        seen.coverage.followed(NAME, name);
        return;
    };
    for name in followed::names(chart, monitor, kind, log) {
        seen.coverage.followed(NAME, name);
    }
    let mut feeding = Feeding::of(chart, *monitor, before, log);
    loop {
        let before = feeding.monitor;
        let Ok((_, answer)) = feeding.take() else {
            break;
        };
        let after = &feeding.monitor;
        seen.coverage.fed(NAME, chart, &before, &answer, after);
    }
}

/// The same through the safe wrapper, unless the library refuses the bytes or the kind.
fn check_safe(live: &[u8], kind: [u8; KIND_SIZE], log: &[u8], given: &Given) -> Result<(), Both> {
    let monitor = LiveMonitor::from_bytes(live.to_vec());
    let kind = lsc::LogKind::from_bytes(kind);
    let (Ok(mut monitor), Some(mut kind)) = (monitor, kind) else {
        let refused = matches!(given.number, 20 | 21);
        return same("a refused monitor or kind", refused, true);
    };
    let before = kind;
    let fed = monitor.feed_log(&mut kind, log);
    let last = match fed.last {
        None => 0,
        Some(lsc::Answer::Broken { record, reason }) => {
            let standing = monitor.standing();
            let wanted = (standing.break_record, standing.reason);
            same("the safe break", (record, Some(reason)), wanted)?;
            1
        }
        Some(lsc::Answer::Kept) => 2,
        Some(lsc::Answer::Dropped) => 3,
        Some(lsc::Answer::Entered) => 4,
        Some(lsc::Answer::Moved) => 5,
        Some(lsc::Answer::Quiet) => 6,
    };
    let counts = fed.counts;
    let answered = [
        counts.broken,
        counts.kept,
        counts.dropped,
        counts.entered,
        counts.moved,
        counts.quiet,
    ];
    let mut out = vec![fed.taken as u64, fed.place as u64, last];
    out.extend(answered.map(u64::from));
    same("the safe number", fed.stop.number(), given.number)?;
    same("the safe numbers", &out, &given.out)?;
    let wanted = Hex(&given.live);
    same("the safe live bytes", Hex(monitor.as_bytes()), wanted)?;
    // A stamp that does not count is not kept by the safe kind.
    let wanted = match fed.taken {
        0 => before.to_bytes().to_vec(),
        _ => given.kind.clone(),
    };
    same("the safe kind", Hex(&kind.to_bytes()), Hex(&wanted))
}

/// The sums over the calls that follow a log in parts, and what they leave.
struct Sums {
    given: Given,
    /// Calls that took a record.
    taking: usize,
    /// Parts that came.
    parts: usize,
}

/// Feeds the log part by part, as a host does that follows it: what was not taken waits for the
/// next part, and a stop that is neither the end nor a cut record is the last.
fn follow(live: &[u8], kind: &[u8], parts: &[&[u8]]) -> Sums {
    let mut given = Given {
        number: 0,
        live: live.to_vec(),
        kind: kind.to_vec(),
        out: vec![0; LOG_PLACES],
    };
    let (mut waiting, mut taking, mut come) = (Vec::new(), 0, 0);
    for part in parts {
        waiting.extend_from_slice(part);
        come += 1;
        let next = proved(&given.live, &given.kind, &waiting, LOG_PLACES);
        let place = usize::try_from(next.out[1]).unwrap_or(usize::MAX);
        waiting.drain(..place.min(waiting.len()));
        let last = if next.out[0] > 0 {
            taking += 1;
            next.out[2]
        } else {
            given.out[2]
        };
        let mut out = given.out;
        for (sum, more) in out.iter_mut().zip(&next.out) {
            *sum += more;
        }
        out[2] = last;
        given = Given { out, ..next };
        if !matches!(given.number, 0 | 30) {
            break;
        }
    }
    Sums {
        given,
        taking,
        parts: come,
    }
}

/// Some cuts of a log, which depend on its bytes alone.
fn some_parts<'a>(seed: u64, log: &'a [u8]) -> Vec<&'a [u8]> {
    let mut rng = Rng::new(seed);
    let most = rng.pick(&[2, 7, 12, 40]);
    let mut parts: Vec<&'a [u8]> = Vec::new();
    let mut rest = log;
    while !rest.is_empty() || parts.is_empty() {
        let (part, after) = rest.split_at(rng.below(most + 1).min(rest.len()));
        parts.push(part);
        rest = after;
    }
    parts
}

pub fn compare_parts(live: &[u8], second: &[u8], seen: &mut Seen) -> Result<(), Both> {
    let (kind, log) = split(second);
    let Some((bytes, chart, monitor)) = held(live) else {
        return Ok(());
    };
    let (true, Some(before)) = (is_fit(&chart, &monitor), LogKind::from_bytes(kind)) else {
        return Ok(());
    };
    let whole = proved(live, &kind, log, LOG_PLACES);
    let seed = second.iter().fold(7, |seed: u64, &byte| {
        seed.wrapping_mul(31) ^ u64::from(byte)
    });
    let alone: Vec<&[u8]> = log.chunks(1).chain(log.is_empty().then_some(log)).collect();
    for parts in [
        alone,
        some_parts(seed, log),
        some_parts(seed ^ 1, log),
        some_parts(seed ^ 2, log),
    ] {
        let sums = follow(live, &kind, &parts);
        let Sums { given, .. } = &sums;
        let said = (given.number, &given.out);
        same("in parts", said, (whole.number, &whole.out))?;
        let said = (Hex(&given.live), Hex(&given.kind));
        let wanted = (Hex(&whole.live), Hex(&whole.kind));
        same("bytes after parts", said, wanted)?;
        count_parts(&whole, &sums, &parts, log, seen);
    }
    check_one_by_one(live, &chart, monitor, before, log, &whole)?;
    if (monitor, before) == (MonitorValue::ZERO, LogKind::NoRecord) {
        check_asked(bytes, log, &whole, seen)?;
    }
    Ok(())
}

/// Counts what following a log in parts came to.
fn count_parts(whole: &Given, sums: &Sums, parts: &[&[u8]], log: &[u8], seen: &mut Seen) {
    let mut count = |name| seen.coverage.followed(PARTS_NAME, name);
    if sums.taking > 1 {
        let course = match whole.kind[0] {
            2 => Course::MoreRaw,
            _ => Course::MorePlain,
        };
        count(Followed::Stopped(course, whole.number));
        if whole.number == 1 && sums.parts < parts.len() {
            count(Followed::Is("broken before the last part"));
        }
    }
    let mut cuts = vec![0];
    for part in parts {
        cuts.push(cuts[cuts.len() - 1] + part.len());
    }
    cuts.dedup();
    let alone = parts.len() > 1 && parts.iter().all(|part| part.len() == 1);
    if alone {
        count(Followed::Is("each byte alone"));
    }
    if parts.iter().any(|part| part.is_empty()) {
        count(Followed::Is("a part of no bytes"));
    }
    let (mut place, mut stamp) = (0, None);
    while let Next::Taken(record, after) = read_record(log, place) {
        if after as u64 > whole.out[1] {
            break;
        }
        let up_to = cuts.partition_point(|&cut| cut <= place);
        let within = cuts.partition_point(|&cut| cut < after) - up_to;
        if within > 0 {
            count(Followed::Is("a cut within a record"));
        }
        if within > 1 {
            count(Followed::Is("a record in three parts"));
        }
        let between = place > 0 && cuts.binary_search(&place).is_ok();
        if between {
            count(Followed::Is("a cut between records"));
        }
        if let LogRecord::Raw(record) = record {
            let wraps = stamp.is_some_and(|before| record.stamp.0 < before);
            if wraps && (between || within > 0) {
                count(Followed::Is("a wrap over a cut"));
            }
            stamp = Some(record.stamp.0);
        }
        place = after;
    }
}

/// The records that the reference takes, each fed alone at its moment, leave the same live bytes
/// and count the same answers.
fn check_one_by_one(
    live: &[u8],
    chart: &ChartValue,
    monitor: MonitorValue,
    kind: LogKind,
    log: &[u8],
    whole: &Given,
) -> Result<(), Both> {
    let mut alone = live.to_vec();
    let mut out = vec![0; LOG_PLACES];
    let mut feeding = Feeding::of(chart, monitor, kind, log);
    while let Ok((record, _)) = feeding.take() {
        let answer = feed_live(&mut alone, &record);
        out[0] += 1;
        out[1] = feeding.place as u64;
        out[2] = answer.into();
        if let Some(count) = out.get_mut(2 + usize::from(answer)) {
            *count += 1;
        }
    }
    let said = (&whole.out, Hex(&whole.live));
    same("one by one", said, (&out, Hex(&alone)))
}

/// A fresh monitor and a log from its start: as asking whether it breaks the chart, and as judging,
/// if that accepts it.
fn check_asked(chart: &[u8], log: &[u8], whole: &Given, seen: &mut Seen) -> Result<(), Both> {
    let mut count = |name| seen.coverage.followed(PARTS_NAME, Followed::Is(name));
    let mut asked = [0; BREAKS_PLACES];
    let number = call::breaks(chart, log, &mut asked);
    let broken = whole.number == Stop::Broken.number();
    let said = match whole.number {
        0 | 1 => (0, [broken.into(), 0, 0]),
        refused => (refused, [2, refused.into(), whole.out[1]]),
    };
    same("as asked", said, (number, asked))?;
    count(match whole.number {
        0 => "asked: no",
        1 => "asked: yes",
        _ => "asked: refused",
    });
    let (mut judged, mut standing) = ([0; PLACES], [0; PLACES]);
    if call::judge(chart, log, &mut judged) == 0 {
        let number = call::standing(&whole.live, &mut standing);
        same("as judged", (number, standing), (0, judged))?;
        count("judged: the standing");
    } else if broken {
        count("judged: refused behind a break");
    }
    Ok(())
}
