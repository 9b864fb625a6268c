//! A compiled chart for one loop over logs alone.

use super::plan::Plan;
use super::state::Moments;
use super::steps::Regions;
use std::marker::PhantomData;

/// A compiled chart as one loop takes it. The loop's type makes its steps a function of their own,
/// so that every other loop is compiled as if there were no such.
pub struct Own<'a, Loop> {
    plan: &'a Plan,
    of: PhantomData<Loop>,
}

impl<Loop> Own<'_, Loop> {
    pub fn of(plan: &Plan) -> Own<'_, Loop> {
        Own {
            plan,
            of: PhantomData,
        }
    }
}

impl<Loop> Regions for Own<'_, Loop> {
    #[inline]
    fn holds(&self, place: usize, moments: &Moments) -> bool {
        self.plan.holds(place, moments)
    }

    fn failing_term(&self, place: usize, moments: &Moments) -> usize {
        self.plan.failing_term(place, moments)
    }

    #[inline]
    fn is_hot(&self, place: usize) -> bool {
        self.plan.is_hot(place)
    }

    #[inline]
    fn resets(&self, place: usize) -> u8 {
        self.plan.resets(place)
    }

    #[inline]
    fn woken(&self, place: usize) -> u32 {
        self.plan.woken(place)
    }
}
