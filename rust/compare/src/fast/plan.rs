//! A chart compiled for many records.

use super::keys::{key_of, Keys};
use super::log::{check_log, is_raw};
use super::masks::Masks;
use super::state::{Moments, State};
use super::steps::{first_failing, take, Regions};
use super::term::PackedTerm;
use lsc_reference::log::Verdict;
use lsc_reference::value::*;

/// A compiled chart.
#[derive(Clone, Debug)]
pub struct Plan {
    pub(super) masks: Masks,
    hot: u32,
    rest: u32,
    resets: [u8; MAX_REGIONS],
    woken: [u32; MAX_REGIONS],
    first_term: [u8; MAX_REGIONS + 1],
    terms: [PackedTerm; MAX_REGIONS * MAX_TERMS],
    pub(super) keys: Keys,
}

impl Regions for Plan {
    #[inline]
    fn holds(&self, place: usize, moments: &Moments) -> bool {
        let mut terms = self.terms_of(place).iter();
        terms.all(|term| term.holds(moments))
    }

    fn failing_term(&self, place: usize, moments: &Moments) -> usize {
        first_failing(self.terms_of(place).iter().copied(), moments)
    }

    #[inline]
    fn is_hot(&self, place: usize) -> bool {
        (self.hot >> place) & 1 == 1
    }

    #[inline]
    fn resets(&self, place: usize) -> u8 {
        self.resets[place]
    }

    #[inline]
    fn woken(&self, place: usize) -> u32 {
        self.woken[place]
    }
}

/// The chart's messages as keys, each with its regions.
fn keys_of(regions: &[RegionValue]) -> Vec<(u32, u32)> {
    let mut keys: Vec<(u32, u32)> = Vec::with_capacity(regions.len());
    for (place, region) in regions.iter().enumerate() {
        if let Some(message) = region.message() {
            let key = key_of(message);
            match keys.iter_mut().find(|(known, _)| *known == key) {
                Some((_, carriers)) => *carriers |= 1 << place,
                None => keys.push((key, 1 << place)),
            }
        }
    }
    keys
}

/// The highest member of a set alone; none of none.
fn highest(set: u32) -> u32 {
    match set {
        0 => 0,
        _ => 1 << (31 - set.leading_zeros()),
    }
}

/// The plain regions that have the region at `place` above them.
fn woken_by(masks: &Masks, place: usize) -> u32 {
    let below = masks.above.iter().enumerate();
    let below = below.map(|(below, above)| ((above >> place) & 1) << below);
    below.sum::<u32>() & masks.plain
}

impl Plan {
    /// The compiled chart; none for refusal 20.
    pub fn of(chart: &ChartValue) -> Option<Plan> {
        Some(Plan::by(chart, Masks::of(chart)?))
    }

    /// The compiled chart of these masks.
    pub(super) fn by(chart: &ChartValue, masks: Masks) -> Plan {
        let regions = &chart.regions[..usize::from(chart.count)];
        let mut plan = Plan {
            masks,
            hot: 0,
            rest: 0,
            resets: [0; MAX_REGIONS],
            woken: [0; MAX_REGIONS],
            first_term: [0; MAX_REGIONS + 1],
            terms: [PackedTerm::ANY; MAX_REGIONS * MAX_TERMS],
            keys: Keys::of(&keys_of(regions)),
        };
        let mut terms = 0;
        for (place, region) in regions.iter().enumerate() {
            plan.hot |= u32::from(region.hot) << place;
            plan.rest |= u32::from(region.rest) << place;
            plan.resets[place] = region.resets;
            plan.woken[place] = woken_by(&masks, place);
            for term in region.condition() {
                plan.terms[terms] = PackedTerm::of(term);
                terms += 1;
            }
            plan.first_term[place + 1] = terms as u8;
        }
        plan
    }

    /// The terms of the region at `place`.
    #[inline]
    fn terms_of(&self, place: usize) -> &[PackedTerm] {
        let from = usize::from(self.first_term[place]);
        let to = usize::from(self.first_term[place + 1]);
        &self.terms[from..to]
    }

    /// Takes a record that is neither refused nor after a break.
    #[inline]
    pub fn take_record(&self, state: &mut State, record: &RecordValue) -> Answer {
        state.count(record.time());
        let carriers = match record.message() {
            None => 0,
            Some(message) => self.keys.carriers(key_of(message)),
        };
        match carriers {
            0 => Answer::Quiet,
            carriers => take(self, &self.masks, state, carriers),
        }
    }

    /// The message regions ready in this state.
    pub fn ready_messages(&self, state: &State) -> u32 {
        let mut ready = 0;
        let mut left = self.masks.all & !self.masks.plain & !state.fired;
        while left != 0 {
            let place = left.trailing_zeros() as usize;
            left &= left - 1;
            if self.masks.is_ready(state.fired, place) {
                ready |= 1 << place;
            }
        }
        ready
    }

    /// Judging with this chart. Each kind of log has a loop of its own, chosen by its first byte.
    pub fn judge(&self, log: &[u8]) -> Result<Verdict, (u8, usize)> {
        if is_raw(log) {
            self.judge_raw(log)
        } else {
            self.judge_plain(log)
        }
    }

    /// Judging a plain log: all of it is checked, then fed until it ends or breaks.
    #[inline(never)]
    fn judge_plain(&self, log: &[u8]) -> Result<Verdict, (u8, usize)> {
        check_log(log)?;
        let mut state = State::FRESH;
        let mut rest = log;
        loop {
            if let [1, k0, k1, k2, k3, t0, t1, t2, t3, after @ ..] = rest {
                rest = after;
                state.count(u32::from_be_bytes([*t0, *t1, *t2, *t3]));
                let carriers = self.keys.carriers(u32::from_be_bytes([*k0, *k1, *k2, *k3]));
                if carriers != 0 {
                    take(self, &self.masks, &mut state, carriers);
                    if state.broken.is_some() {
                        break;
                    }
                }
            } else if let [_, t0, t1, t2, t3, after @ ..] = rest {
                rest = after;
                state.count(u32::from_be_bytes([*t0, *t1, *t2, *t3]));
            } else {
                break;
            }
        }
        Ok(self.verdict(&state))
    }

    /// The verdict on a log that leads to this state.
    pub(super) fn verdict(&self, state: &State) -> Verdict {
        Verdict {
            standing: self.standing(state),
            kept: state.kept,
            dropped: state.dropped,
            records: state.records,
            broken: state.broken,
        }
    }

    fn standing(&self, state: &State) -> u8 {
        if state.broken.is_some() {
            3
        } else if state.fired == 0 {
            0
        } else if self.masks.prechart & !state.fired != 0 {
            1
        } else if self.rests(state.fired) {
            4
        } else {
            2
        }
    }

    /// Whether each line with an unfired main region has a fired one, the last of them marked.
    fn rests(&self, fired: u32) -> bool {
        self.masks.on_line.iter().all(|&regions| {
            let fired = regions & fired;
            fired == regions || self.rest & highest(fired) != 0
        })
    }
}
