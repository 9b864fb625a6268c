//! Whether a log breaks the chart: one pass, in which each record is checked and taken, up to the
//! first break.

use super::log::{check_rest, first_stamp, is_raw, Fault};
use super::own::Own;
use super::plan::Plan;
use super::state::State;
use super::steps::take;
use lsc_reference::value::MAX_RECORDS;

/// How a kind of log gives its records their moments. Each kind is a loop of its own.
pub trait LogClock {
    /// The record byte of a message, and that of time alone.
    const MESSAGE: u8;
    const TIME: u8;

    /// The moment of the next record, which has this time or stamp; or refusal 22 or 24.
    fn moment(&mut self, number: u32) -> Result<u32, u8>;
}

/// The time of a plain log's last record.
pub struct PlainClock(pub u32);

impl LogClock for PlainClock {
    const MESSAGE: u8 = 1;
    const TIME: u8 = 2;

    #[inline(always)]
    fn moment(&mut self, time: u32) -> Result<u32, u8> {
        if time < self.0 {
            return Err(22);
        }
        self.0 = time;
        Ok(time)
    }
}

/// The stamp and the moment of a raw log's last record. Before the first it is the first one's
/// stamp, at moment 0.
pub struct RawClock {
    pub stamp: u32,
    pub moment: u32,
}

impl LogClock for RawClock {
    const MESSAGE: u8 = 3;
    const TIME: u8 = 4;

    #[inline(always)]
    fn moment(&mut self, stamp: u32) -> Result<u32, u8> {
        let gap = stamp.wrapping_sub(self.stamp);
        if gap >= 1 << 31 {
            return Err(22);
        }
        self.moment = self.moment.checked_add(gap).ok_or(24)?;
        self.stamp = stamp;
        Ok(self.moment)
    }
}

impl Plan {
    /// Whether the log breaks this chart.
    pub fn breaks(&self, log: &[u8]) -> Result<bool, Fault> {
        if is_raw(log) {
            let stamp = first_stamp(log);
            self.breaks_by(log, RawClock { stamp, moment: 0 })
        } else {
            self.breaks_by(log, PlainClock(0))
        }
    }

    /// The same for a log of the clock's kind; a record of the other one is 32.
    #[inline(never)]
    fn breaks_by<C: LogClock>(&self, log: &[u8], mut clock: C) -> Result<bool, Fault> {
        let regions = Own::<C>::of(self);
        let mut state = State::FRESH;
        let mut rest = log;
        loop {
            let (carriers, number, after) = match rest {
                [byte, k0, k1, k2, k3, t0, t1, t2, t3, after @ ..] if *byte == C::MESSAGE => {
                    let key = u32::from_be_bytes([*k0, *k1, *k2, *k3]);
                    let number = u32::from_be_bytes([*t0, *t1, *t2, *t3]);
                    (self.keys.carriers(key), number, after)
                }
                [byte, t0, t1, t2, t3, after @ ..] if *byte == C::TIME => {
                    (0, u32::from_be_bytes([*t0, *t1, *t2, *t3]), after)
                }
                _ => return check_rest(log, rest).map(|()| false),
            };
            let refused = |code| (code, log.len() - rest.len());
            let moment = clock.moment(number).map_err(refused)?;
            if state.records == MAX_RECORDS {
                return Err(refused(23));
            }
            state.count(moment);
            if carriers != 0 {
                take(&regions, &self.masks, &mut state, carriers);
                if state.broken.is_some() {
                    return Ok(true);
                }
            }
            rest = after;
        }
    }
}
