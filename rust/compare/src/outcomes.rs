//! Names for what a log came to, in judging and in printing.

use lsc_reference::log::{read_record, Next, Verdict};
use lsc_reference::record::{LogRecord, Stamp};
use std::fmt;

/// The kind of a log, which is that of its first record.
#[derive(Clone, Copy, Debug, PartialEq, Eq, PartialOrd, Ord)]
pub enum Times {
    Plain,
    Raw,
}

impl Times {
    /// The kind of this log; none if no record starts it.
    pub fn of(log: &[u8]) -> Option<Times> {
        match log.first() {
            Some(1 | 2) => Some(Plain),
            Some(3 | 4) => Some(Raw),
            _ => None,
        }
    }
}

/// What a log came to.
#[derive(Clone, Copy, Debug, PartialEq, Eq, PartialOrd, Ord)]
pub enum Outcome {
    Refused(Times, u8),
    Standing(Times, u8),
    /// Two raw stamps, one after the other, differ so much: taken, or refused with 22.
    Gap(u64),
    /// The last raw record is at this moment: taken, or refused with 24.
    Moment(u64),
    /// A raw stamp below the one before it is taken.
    Wrap,
}

use Outcome::*;
use Times::*;

/// What logs must come to in judging and in printing. A difference of 5 is a gap of 2^32 + 5 too.
pub const OUTCOMES: [Outcome; 26] = [
    Refused(Plain, 22),
    Refused(Plain, 30),
    Refused(Plain, 31),
    Refused(Plain, 32),
    Refused(Raw, 22),
    Refused(Raw, 24),
    Refused(Raw, 30),
    Refused(Raw, 31),
    Refused(Raw, 32),
    Standing(Plain, 0),
    Standing(Plain, 1),
    Standing(Plain, 2),
    Standing(Plain, 3),
    Standing(Plain, 4),
    Standing(Raw, 0),
    Standing(Raw, 1),
    Standing(Raw, 2),
    Standing(Raw, 3),
    Standing(Raw, 4),
    Gap(5),
    Gap((1 << 31) - 1),
    Gap(1 << 31),
    Gap((1 << 32) - 1),
    Moment((1 << 32) - 1),
    Moment(1 << 32),
    Wrap,
];

/// And in judging alone: no printed input has so many records (P11).
pub const FULL_OUTCOMES: [Outcome; 2] = [Refused(Plain, 23), Refused(Raw, 23)];

/// What a log came to that was judged so, by its first refusal or its verdict.
pub fn outcomes(log: &[u8], judged: &Result<Verdict, (u8, usize)>) -> Vec<Outcome> {
    let Some(times) = Times::of(log) else {
        return Vec::new();
    };
    let stamps = stamps(log, judged.as_ref().err().map(|fault| fault.1));
    let pairs = stamps.windows(2);
    let gaps: Vec<u64> = pairs.clone().map(|pair| pair[1].since(pair[0])).collect();
    let moment = gaps.iter().sum();
    let mut found = match judged {
        Err((number, _)) => vec![Refused(times, *number)],
        Ok(verdict) => vec![Standing(times, verdict.standing)],
    };
    match judged {
        Err((22, _)) => found.extend(gaps.last().copied().map(Gap)),
        Err((24, _)) => found.push(Moment(moment)),
        Err(_) => {}
        Ok(_) => {
            found.push(Moment(moment));
            found.extend(gaps.into_iter().map(Gap));
            let wraps = pairs.filter(|pair| pair[1].0 < pair[0].0);
            found.extend(wraps.map(|_| Wrap));
        }
    }
    found.retain(|name| OUTCOMES.contains(name) || FULL_OUTCOMES.contains(name));
    found
}

/// The stamps of a raw log's records, up to the one at fault, if there is one.
fn stamps(log: &[u8], fault: Option<usize>) -> Vec<Stamp> {
    let mut stamps = Vec::new();
    let mut offset = 0;
    while let Next::Taken(LogRecord::Raw(record), after) = read_record(log, offset) {
        stamps.push(record.stamp);
        if fault == Some(offset) {
            break;
        }
        offset = after;
    }
    stamps
}

impl fmt::Display for Times {
    fn fmt(&self, f: &mut fmt::Formatter<'_>) -> fmt::Result {
        f.write_str(match self {
            Plain => "plain",
            Raw => "raw",
        })
    }
}

impl fmt::Display for Outcome {
    fn fmt(&self, f: &mut fmt::Formatter<'_>) -> fmt::Result {
        match self {
            Refused(times, number) => write!(f, "{times} log, refusal {number}"),
            Standing(times, standing) => write!(f, "{times} log, standing {standing}"),
            Gap(ticks) => write!(f, "raw log, a gap of {ticks}"),
            Moment(moment) => write!(f, "raw log, moment {moment}"),
            Wrap => write!(f, "raw log, a wrap"),
        }
    }
}

#[cfg(test)]
mod tests {
    use super::*;

    const GOOD: Result<Verdict, (u8, usize)> = Ok(Verdict::ZERO);

    #[test]
    fn stamps_are_named() {
        let log = [4, 0xFF, 0xFF, 0xFF, 0xFE, 4, 0, 0, 0, 3];
        let expected = [Standing(Raw, 0), Gap(5), Wrap];
        assert_eq!(outcomes(&log, &GOOD), expected);
        let half = [4, 0, 0, 0, 0, 4, 0, 0, 0, 1, 4, 0x80, 0, 0, 1];
        let expected = [Refused(Raw, 22), Gap(1 << 31)];
        assert_eq!(outcomes(&half, &Err((22, 10))), expected);
        let far = [4, 0, 0, 0, 1, 4, 0x80, 0, 0, 0, 4, 0xFF, 0xFF, 0xFF, 0xFF];
        let gap = Gap((1 << 31) - 1);
        let expected = [Standing(Raw, 0), gap, gap];
        assert_eq!(outcomes(&far, &GOOD), expected);
        let late = [&far[..], &[4, 0, 0, 0, 1, 4, 0, 0, 0, 9]].concat();
        let expected = [Refused(Raw, 24), Moment(1 << 32)];
        assert_eq!(outcomes(&late, &Err((24, 15))), expected);
        let last = [&far[..], &[4, 0, 0, 0, 0]].concat();
        let moment = Moment((1 << 32) - 1);
        assert!(outcomes(&last, &GOOD).contains(&moment));
    }

    #[test]
    fn plain_logs_and_others_are_named() {
        let mixed = [2, 0, 0, 0, 0, 4, 0, 0, 0, 0];
        assert_eq!(outcomes(&mixed, &Err((32, 5))), [Refused(Plain, 32)]);
        assert_eq!(outcomes(&[7], &Err((31, 0))), []);
        assert_eq!(outcomes(&[], &GOOD), []);
    }
}
