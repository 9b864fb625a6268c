//! Walks over a log's bytes, plain or raw.

use lsc_reference::value::MAX_RECORDS;

/// A refusal's number and its offset.
pub type Fault = (u8, usize);

/// The next plain record's time and the bytes after it; none at the log's end, at any other
/// record byte and at a cut record. One arm for both kinds would make every walk slower.
#[inline(always)]
fn next(rest: &[u8]) -> Option<(u32, &[u8])> {
    match rest {
        [1, _, _, _, _, t0, t1, t2, t3, after @ ..] => {
            Some((u32::from_be_bytes([*t0, *t1, *t2, *t3]), after))
        }
        [2, t0, t1, t2, t3, after @ ..] => Some((u32::from_be_bytes([*t0, *t1, *t2, *t3]), after)),
        _ => None,
    }
}

/// The next raw record's stamp and the bytes after it; none likewise.
#[inline(always)]
fn next_raw(rest: &[u8]) -> Option<(u32, &[u8])> {
    match rest {
        [3, _, _, _, _, t0, t1, t2, t3, after @ ..] => {
            Some((u32::from_be_bytes([*t0, *t1, *t2, *t3]), after))
        }
        [4, t0, t1, t2, t3, after @ ..] => Some((u32::from_be_bytes([*t0, *t1, *t2, *t3]), after)),
        _ => None,
    }
}

/// The first stamp of a raw log; 0 if its first record is cut.
pub fn first_stamp(log: &[u8]) -> u32 {
    next_raw(log).map_or(0, |(stamp, _)| stamp)
}

/// Whether the log is raw, by its first record byte; if not, it is checked and fed as a plain one.
pub fn is_raw(log: &[u8]) -> bool {
    matches!(log, [3 | 4, ..])
}

/// Refusals 31, 30, 32, 22 and 23 of a whole plain log, in one pass.
pub fn check_log(log: &[u8]) -> Result<u32, Fault> {
    let mut rest = log;
    let mut last = 0;
    let mut records = 0;
    while let Some((time, after)) = next(rest) {
        let offset = log.len() - rest.len();
        if time < last {
            return Err((22, offset));
        }
        if records == MAX_RECORDS {
            return Err((23, offset));
        }
        last = time;
        records += 1;
        rest = after;
    }
    check_rest(log, rest).map(|()| records)
}

/// The refusals of a whole raw log, in one pass: those of a plain one, and 24 after 22. The answer
/// is the first stamp, which every moment is counted from: while they fit in 32 bits, the moments
/// are the stamps less the first, taken round the wrap.
pub fn check_raw_log(log: &[u8]) -> Result<u32, Fault> {
    let mut rest = log;
    let first = first_stamp(log);
    let (mut last, mut moment) = (first, 0u32);
    let mut records = 0;
    while let Some((stamp, after)) = next_raw(rest) {
        let offset = log.len() - rest.len();
        let gap = stamp.wrapping_sub(last);
        if gap >= 1 << 31 {
            return Err((22, offset));
        }
        let Some(later) = moment.checked_add(gap) else {
            return Err((24, offset));
        };
        if records == MAX_RECORDS {
            return Err((23, offset));
        }
        (last, moment) = (stamp, later);
        records += 1;
        rest = after;
    }
    check_rest(log, rest).map(|()| first)
}

/// What is wrong with the bytes that a walk over a log leaves: nothing if none are left, else 31,
/// 30, or 32 for a whole record of the other kind.
pub fn check_rest(log: &[u8], rest: &[u8]) -> Result<(), Fault> {
    let number = match rest {
        [] => return Ok(()),
        [1 | 3, rest @ ..] if rest.len() < 8 => 30,
        [2 | 4, rest @ ..] if rest.len() < 4 => 30,
        [1..=4, ..] => 32,
        _ => 31,
    };
    Err((number, log.len() - rest.len()))
}

/// A bare walk over a plain log's records: their number and the sum of their times, or none at any
/// other record byte or a cut record. It is the speed limit of every judge.
pub fn scan(log: &[u8]) -> Option<(u64, u64)> {
    let mut rest = log;
    let mut records = 0;
    let mut sum = 0u64;
    while let Some((time, after)) = next(rest) {
        records += 1;
        sum = sum.wrapping_add(u64::from(time));
        rest = after;
    }
    rest.is_empty().then_some((records, sum))
}
