//! A live monitor fed from the bytes of a log: the chart is read once, compiled if there are many
//! records, and then there is a loop for each kind of log.

use super::carriers;
use super::keys::key_of;
use super::log::{check_rest, first_stamp, is_raw};
use super::masks::Masks;
use super::own::Own;
use super::plan::Plan;
use super::state::State;
use super::steps::{take, Raw, Regions};
use super::yes_no::{LogClock, PlainClock, RawClock};
use lsc_reference::feed_log::{LogKind, KIND_SIZE, LOG_PLACES};
use lsc_reference::live::{held, monitor_image, MONITOR_IMAGE};
use lsc_reference::record::Stamp;
use lsc_reference::value::*;

/// From so many bytes on it pays to compile the chart.
pub const WORTH_A_PLAN: usize = 400;

/// The loops over a compiled chart.
struct Following;

/// What feeding some bytes came to.
struct Fed {
    state: State,
    stop: u8,
    place: usize,
    /// The last record's answer, and its time or stamp.
    last: u8,
    number: u32,
    answered: [u64; 6],
}

impl Fed {
    /// It stopped before any record.
    fn none(state: State, stop: u8) -> Fed {
        Fed {
            state,
            stop,
            place: 0,
            last: 0,
            number: 0,
            answered: [0; 6],
        }
    }
}

/// Feeds the records of the clock's kind to a state that is not broken, up to what is none of them
/// or is refused. The state is the loop's own: so its numbers stay in registers.
#[inline(never)]
fn feed<R: Regions, C: LogClock>(
    (regions, masks): (&R, &Masks),
    carriers: impl Fn(Message) -> u32,
    state: &State,
    mut clock: C,
    log: &[u8],
) -> Fed {
    let mut state = *state;
    let (mut last, mut last_number, mut answered) = (0, 0, [0; 6]);
    let mut rest = log;
    let stop = loop {
        let (carriers, number, after) = match rest {
            [byte, k0, k1, k2, k3, t0, t1, t2, t3, after @ ..] if *byte == C::MESSAGE => {
                let message = Message::from_bytes([*k0, *k1, *k2, *k3]);
                let number = u32::from_be_bytes([*t0, *t1, *t2, *t3]);
                (carriers(message), number, after)
            }
            [byte, t0, t1, t2, t3, after @ ..] if *byte == C::TIME => {
                (0, u32::from_be_bytes([*t0, *t1, *t2, *t3]), after)
            }
            _ => break check_rest(log, rest).map_or_else(|fault| fault.0, |()| 0),
        };
        let moment = match clock.moment(number) {
            Ok(moment) => moment,
            Err(refused) => break refused,
        };
        if state.records == MAX_RECORDS {
            break 23;
        }
        state.count(moment);
        let answer = match carriers {
            0 => Answer::Quiet,
            carriers => take(regions, masks, &mut state, carriers),
        };
        (last, last_number) = (answer.number(), number);
        answered[usize::from(last - 1)] += 1;
        rest = after;
        if last == 1 {
            break 1;
        }
    };
    Fed {
        state,
        stop,
        place: log.len() - rest.len(),
        last,
        number: last_number,
        answered,
    }
}

/// The same for a log of any kind; a first record gives it its own.
fn feed_kind<R: Regions>(
    chart: (&R, &Masks),
    carriers: impl Fn(Message) -> u32,
    state: &State,
    kind: LogKind,
    log: &[u8],
) -> Fed {
    let moment = state.now();
    let clock = match kind {
        _ if state.broken.is_some() => return Fed::none(*state, 1),
        LogKind::Raw(Stamp(stamp)) => RawClock { stamp, moment },
        LogKind::NoRecord if is_raw(log) => {
            // The first is at moment 0: too early if it is not now.
            let whole = matches!(check_rest(log, log), Err((32, _)));
            if whole && moment > 0 {
                return Fed::none(*state, 22);
            }
            let stamp = first_stamp(log);
            RawClock { stamp, moment: 0 }
        }
        _ => return feed(chart, carriers, state, PlainClock(moment), log),
    };
    feed(chart, carriers, state, clock, log)
}

/// Feeds the records in the bytes to a live monitor, every refusal tested.
pub fn feed_log(live: &mut [u8], kind: &mut [u8], log: &[u8], out: &mut [u64]) -> u8 {
    feed_log_by(WORTH_A_PLAN, live, kind, log, out)
}

/// The same, and from so many bytes on the chart is compiled.
pub fn feed_log_by(
    worth: usize,
    live: &mut [u8],
    kind: &mut [u8],
    log: &[u8],
    out: &mut [u64],
) -> u8 {
    let Some((kind, _)) = kind.split_first_chunk_mut::<KIND_SIZE>() else {
        return 12;
    };
    let Some((out, _)) = out.split_first_chunk_mut::<LOG_PLACES>() else {
        return 12;
    };
    let Some((_, chart, monitor)) = held(live) else {
        return 20;
    };
    let Some(masks) = Masks::of(&chart) else {
        return 20;
    };
    if !masks.is_fit(&chart, &monitor) {
        return 21;
    }
    let Some(before) = LogKind::from_bytes(*kind) else {
        return 21;
    };
    let state = State::of(&monitor);
    let fed = if log.len() < worth {
        let regions = Raw::of(&chart, &masks);
        let carriers = |message: Message| carriers(&chart, message);
        feed_kind((&regions, &masks), carriers, &state, before, log)
    } else {
        let plan = Plan::by(&chart, masks);
        let regions = Own::<Following>::of(&plan);
        let carriers = |message: Message| plan.keys.carriers(key_of(message));
        feed_kind((&regions, &masks), carriers, &state, before, log)
    };
    let taken = fed.answered.iter().sum();
    out[..3].copy_from_slice(&[taken, fed.place as u64, fed.last.into()]);
    out[3..].copy_from_slice(&fed.answered);
    if taken > 0 {
        live[..MONITOR_IMAGE].copy_from_slice(&monitor_image(&fed.state.to_value()));
        let raw = matches!(before, LogKind::Raw(_)) || is_raw(log);
        let after = if raw {
            LogKind::Raw(Stamp(fed.number))
        } else {
            LogKind::Plain
        };
        *kind = after.to_bytes();
    }
    fed.stop
}
