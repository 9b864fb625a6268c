//! A chart beside the same one without its marks to rest on: the library says the same of both,
//! apart from standing 4 for 2 (J14).

use super::live::{feed_live, records};
use super::PLACES;
use crate::difference::{same, Both, Hex};
use crate::image::{LIVE_HEAD, MONITOR_IMAGE};
use crate::random::{self, Rng, Size};
use crate::rested::{has_mark, without_marks};
use crate::seen::Seen;
use lsc::call::{self, BREAKS_PLACES, PREVIEW_ROOM};
use lsc_reference::reader::read_chart;

/// The kind's name.
pub const NAME: &str = "without marks";

/// The standings of which the second is the first one's without marks.
const OWED: u64 = 2;
const BROKEN: u64 = 3;
const RESTING: u64 = 4;

/// A verdict's places, or a refusal's, and the number.
type Judged = (u8, [u64; PLACES]);

pub fn make(rng: &mut Rng) -> (Vec<u8>, Vec<u8>) {
    let size = random::some_size(rng);
    let (bytes, chart) = random::chart(rng, size);
    let count = rng.below(if size == Size::Large { 60 } else { 16 });
    let log = match rng.below(4) {
        0 => random::faulty_log_bytes(rng, &chart, count),
        1 => random::hostile_log_bytes(rng, &chart),
        _ => random::log_bytes(rng, &chart, count),
    };
    (bytes, log)
}

pub fn compare(chart: &[u8], log: &[u8], seen: &mut Seen) -> Result<(), Both> {
    let value = match read_chart(chart) {
        Ok(value) if has_mark(&value) => value,
        _ => return Ok(()),
    };
    let bare = random::unmarked(chart);
    let wanted = Ok(without_marks(&value));
    same("the chart without marks", read_chart(&bare), wanted)?;
    let (marked, plain) = (judged(chart, log), judged(&bare, log));
    same("judging", owed(marked), plain)?;
    if plain.0 == 0 {
        let name = match (marked.1[0], plain.1[0]) {
            (RESTING, OWED) => Some("judged 4 for 2"),
            (OWED, OWED) => Some("judged 2 for 2"),
            (BROKEN, BROKEN) => Some("judged broken for broken"),
            _ => None,
        };
        seen.coverage.marked(NAME, name);
    }
    same("yes or no", asked(chart, log), asked(&bare, log))?;
    check_live(chart, &bare, log, seen)
}

fn judged(chart: &[u8], log: &[u8]) -> Judged {
    let mut out = [77; PLACES];
    let number = call::judge(chart, log, &mut out);
    (number, out)
}

/// A verdict with standing 2 for 4; a refusal as it is.
fn owed((number, mut out): Judged) -> Judged {
    if number == 0 && out[0] == RESTING {
        out[0] = OWED;
    }
    (number, out)
}

fn asked(chart: &[u8], log: &[u8]) -> (u8, [u64; BREAKS_PLACES]) {
    let mut out = [77; BREAKS_PLACES];
    let number = call::breaks(chart, log, &mut out);
    (number, out)
}

fn opened(chart: &[u8]) -> Vec<u8> {
    let mut live = vec![77; LIVE_HEAD + chart.len()];
    call::open(chart, &mut live, &mut 0);
    live
}

fn standing(live: &[u8]) -> Judged {
    let mut out = [77; PLACES];
    let number = call::standing(live, &mut out);
    (number, out)
}

fn shown(live: &[u8], time: u32) -> (u8, u64, [u8; PREVIEW_ROOM]) {
    let (mut out, mut regions) = ([77; PREVIEW_ROOM], 77);
    let number = call::preview(live, time, &mut out, &mut regions);
    (number, regions, out)
}

/// The log's plain records fed to both: answers, images, standings and what is shown.
fn check_live(chart: &[u8], bare: &[u8], log: &[u8], seen: &mut Seen) -> Result<(), Both> {
    let (mut marked, mut plain) = (opened(chart), opened(bare));
    for record in records(log) {
        let shows = (shown(&marked, record.time()), shown(&plain, record.time()));
        same("what is shown", shows.0, shows.1)?;
        let answer = feed_live(&mut marked, &record);
        same("an answer", answer, feed_live(&mut plain, &record))?;
        let images = [&marked, &plain].map(|live| &live[..MONITOR_IMAGE]);
        same("the monitor", Hex(images[0]), Hex(images[1]))?;
        let stands = (standing(&marked), standing(&plain));
        same("the standing", owed(stands.0), stands.1)?;
        let name = match (stands.0 .1[0], stands.1 .1[0]) {
            (RESTING, OWED) => Some("live 4 for 2"),
            (OWED, OWED) => Some("live 2 for 2"),
            _ => None,
        };
        seen.coverage.marked(NAME, name);
    }
    Ok(())
}
