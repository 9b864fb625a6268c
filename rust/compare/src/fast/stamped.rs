//! Judging raw logs.

use super::log::check_raw_log;
use super::own::Own;
use super::plan::Plan;
use super::state::State;
use super::steps::take;
use lsc_reference::log::Verdict;

/// The loop over a raw log.
struct Stamped;

impl Plan {
    /// Judging a raw log: all of it is checked, then fed until it ends or breaks. Its moments are
    /// its stamps less the first one.
    #[inline(never)]
    pub(super) fn judge_raw(&self, log: &[u8]) -> Result<Verdict, (u8, usize)> {
        let first = check_raw_log(log)?;
        let regions = Own::<Stamped>::of(self);
        let mut state = State::FRESH;
        let mut rest = log;
        loop {
            if let [3, k0, k1, k2, k3, t0, t1, t2, t3, after @ ..] = rest {
                rest = after;
                state.count(u32::from_be_bytes([*t0, *t1, *t2, *t3]).wrapping_sub(first));
                let carriers = self.keys.carriers(u32::from_be_bytes([*k0, *k1, *k2, *k3]));
                if carriers != 0 {
                    take(&regions, &self.masks, &mut state, carriers);
                    if state.broken.is_some() {
                        break;
                    }
                }
            } else if let [_, t0, t1, t2, t3, after @ ..] = rest {
                rest = after;
                state.count(u32::from_be_bytes([*t0, *t1, *t2, *t3]).wrapping_sub(first));
            } else {
                break;
            }
        }
        Ok(self.verdict(&state))
    }
}
