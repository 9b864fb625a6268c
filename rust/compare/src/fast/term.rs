//! A condition's term, packed.

use super::state::{Moments, NOW};
use lsc_reference::value::{LeftValue, TermValue};

/// Beyond every difference of two moments and every n.
const FAR: i64 = 1 << 33;

/// A term as a difference of two moments in an interval: from a clock's reset to now (T4), or
/// from the first clock's reset to the second's (T5).
#[derive(Clone, Copy, Debug)]
pub struct PackedTerm {
    low: i64,
    span: u64,
    plus: u8,
    minus: u8,
}

impl PackedTerm {
    pub const ANY: PackedTerm = PackedTerm {
        low: -FAR,
        span: 2 * FAR as u64,
        plus: 0,
        minus: 0,
    };

    #[inline]
    pub fn of(term: &TermValue) -> PackedTerm {
        let (plus, minus) = match term.left {
            LeftValue::Clock(clock) => (NOW as u8, clock),
            LeftValue::Difference(first, second) => (second, first),
        };
        let n = i64::from(term.n);
        let (low, high) = match term.relation {
            0 => (-FAR, n - 1),
            1 => (-FAR, n),
            2 => (n, n),
            3 => (n, FAR),
            _ => (n + 1, FAR),
        };
        PackedTerm {
            low,
            span: (high - low) as u64,
            plus,
            minus,
        }
    }

    #[inline]
    pub fn holds(&self, moments: &Moments) -> bool {
        let value = i64::from(moments[usize::from(self.plus)])
            - i64::from(moments[usize::from(self.minus)]);
        value.wrapping_sub(self.low) as u64 <= self.span
    }
}
