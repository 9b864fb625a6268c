//! A running monitor, its moments in one row.

use super::masks::Masks;
use lsc_reference::value::*;

/// Place of "now" among the moments, after the eight clocks.
pub const NOW: usize = MAX_CLOCKS;

/// The clocks' reset moments, then now.
pub type Moments = [u32; NOW + 1];

/// A running monitor.
#[derive(Clone, Copy, Debug)]
pub struct State {
    pub fired: u32,
    pub(super) moments: Moments,
    pub records: u32,
    pub kept: u32,
    pub dropped: u32,
    pub broken: Option<Break>,
}

impl State {
    pub const FRESH: State = State {
        fired: 0,
        moments: [0; NOW + 1],
        records: 0,
        kept: 0,
        dropped: 0,
        broken: None,
    };

    pub fn now(&self) -> u32 {
        self.moments[NOW]
    }

    /// The state of a monitor.
    pub fn of(monitor: &MonitorValue) -> State {
        let mut moments = [monitor.now; NOW + 1];
        moments[..NOW].copy_from_slice(&monitor.resets);
        State {
            fired: monitor.fired,
            moments,
            records: monitor.records,
            kept: monitor.kept,
            dropped: monitor.dropped,
            broken: monitor.broken(),
        }
    }

    pub fn to_value(&self) -> MonitorValue {
        let mut resets = [0; MAX_CLOCKS];
        resets.copy_from_slice(&self.moments[..NOW]);
        let (break_record, reason, cause) = Break::numbers(self.broken);
        MonitorValue {
            fired: self.fired,
            resets,
            now: self.moments[NOW],
            records: self.records,
            kept: self.kept,
            dropped: self.dropped,
            break_record,
            reason,
            cause,
        }
    }

    /// Counts a record, whose time becomes now.
    #[inline]
    pub(super) fn count(&mut self, time: u32) {
        self.records += 1;
        self.moments[NOW] = time;
    }

    /// Resets a set of clocks now.
    #[inline]
    pub(super) fn reset(&mut self, clocks: u8) {
        let now = self.now();
        let mut left = clocks;
        while left != 0 {
            self.moments[left.trailing_zeros() as usize] = now;
            left &= left - 1;
        }
    }

    /// Opens a round (T22).
    pub(super) fn reopen(&mut self, masks: &Masks) {
        self.fired = 0;
        let now = self.moments[NOW];
        self.moments[..usize::from(masks.clocks)].fill(now);
    }

    pub(super) fn drop_round(&mut self, masks: &Masks, cause: Cause) -> Answer {
        self.dropped += 1;
        self.reopen(masks);
        Answer::Dropped(cause)
    }

    pub(super) fn break_round(&mut self, reason: Reason, cause: Cause) -> Answer {
        let known = Break {
            record: self.records,
            reason,
            cause,
        };
        self.broken = Some(known);
        Answer::Broken(known)
    }
}
