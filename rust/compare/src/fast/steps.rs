//! What a chart message does to a running monitor.

use super::masks::Masks;
use super::state::{Moments, State};
use super::term::PackedTerm;
use lsc_reference::value::*;

/// What taking a record asks of a chart beyond its masks.
pub trait Regions {
    /// Whether the region's condition holds at these moments.
    fn holds(&self, place: usize, moments: &Moments) -> bool;
    /// The place of the first failing term in a condition that does not hold.
    fn failing_term(&self, place: usize, moments: &Moments) -> usize;
    fn is_hot(&self, place: usize) -> bool;
    fn resets(&self, place: usize) -> u8;
    /// The plain regions that firing this one may make ready.
    fn woken(&self, place: usize) -> u32;
}

/// A chart value as it came, for a single feed.
pub struct Raw<'a> {
    chart: &'a ChartValue,
    plain: u32,
}

impl Raw<'_> {
    pub fn of<'a>(chart: &'a ChartValue, masks: &Masks) -> Raw<'a> {
        Raw {
            chart,
            plain: masks.plain,
        }
    }
}

impl Regions for Raw<'_> {
    fn holds(&self, place: usize, moments: &Moments) -> bool {
        let region = &self.chart.regions[place];
        region
            .condition()
            .iter()
            .all(|term| PackedTerm::of(term).holds(moments))
    }

    fn failing_term(&self, place: usize, moments: &Moments) -> usize {
        let terms = self.chart.regions[place].condition();
        first_failing(terms.iter().map(PackedTerm::of), moments)
    }

    fn is_hot(&self, place: usize) -> bool {
        self.chart.regions[place].hot
    }

    fn resets(&self, place: usize) -> u8 {
        self.chart.regions[place].resets
    }

    fn woken(&self, _place: usize) -> u32 {
        self.plain
    }
}

/// How many terms hold before one fails.
pub fn first_failing(terms: impl Iterator<Item = PackedTerm>, moments: &Moments) -> usize {
    terms.take_while(|term| term.holds(moments)).count()
}

/// Which condition decides. It is asked only where one fails: tests that hold cost nothing more.
#[cold]
fn cause<R: Regions>(regions: &R, place: usize, moments: &Moments) -> Cause {
    Cause::at(place, regions.failing_term(place, moments))
}

/// Steps 3 to 7 for a counted chart message carried by `carriers`, and its second offer. Both
/// offers end in one call, so that firing is compiled once into the loop over a log.
#[inline]
pub fn take<R: Regions>(regions: &R, masks: &Masks, state: &mut State, carriers: u32) -> Answer {
    let before = state.fired;
    let first = match masks.lowest_ready(before, carriers & !before) {
        Some(first) => first,
        None if masks.prechart & !before == 0 => {
            return state.break_round(Reason::NoReadyRegion, Cause::NONE);
        }
        None => {
            let dropped = state.drop_round(masks, Cause::NONE);
            // T33: something was fired, and an opening region has the message.
            match masks.lowest_ready(0, carriers) {
                Some(first) if before != 0 => first,
                _ => return dropped,
            }
        }
    };
    fire(regions, masks, state, first)
}

/// Steps 3, 4, 5 and 7, from a ready region on that has the message.
#[inline]
fn fire<R: Regions>(regions: &R, masks: &Masks, state: &mut State, first: usize) -> Answer {
    let before = state.fired;
    let mut place = first;
    let mut waiting = 0;
    loop {
        if !regions.holds(place, &state.moments) {
            let cause = cause(regions, place, &state.moments);
            return if regions.is_hot(place) {
                state.break_round(Reason::ConditionFails, cause)
            } else {
                state.drop_round(masks, cause)
            };
        }
        state.fired |= 1 << place;
        state.reset(regions.resets(place));
        waiting = (waiting | regions.woken(place)) & !state.fired;
        match masks.lowest_ready(state.fired, waiting) {
            Some(next) => place = next,
            None => break,
        }
    }
    if state.fired == masks.all {
        state.kept += 1;
        state.reopen(masks);
        Answer::Kept
    } else if masks.prechart & !before != 0 && masks.prechart & !state.fired == 0 {
        Answer::Entered
    } else {
        Answer::Moved
    }
}
