//! The static libraries' functions over slices: the numbers as they come, no `unsafe` for
//! the caller. `include/lsc.h` says what each answers, writes and leaves.
//!
//! The functions have no preconditions beyond valid pointers and lengths: they are proved
//! safe for every content of the bytes lent to them. They keep no pointer and no state.
#![allow(unsafe_code)]

use crate::raw;

/// The places that `lsc_judge` and `lsc_standing` want.
pub const VERDICT_PLACES: usize = 8;

/// The places that `lsc_read_record` wants.
pub const RECORD_PLACES: usize = 6;

/// The places that `lsc_breaks` wants.
pub const BREAKS_PLACES: usize = 3;

/// The places that `lsc_feed_log` wants.
pub const LOG_PLACES: usize = 9;

/// The bytes that `lsc_feed_log` keeps the kind of a log in.
pub const KIND_SIZE: usize = 5;

/// The bytes that `lsc_print` wants: no text is longer.
pub const TEXT_ROOM: usize = 223;

/// The bytes that are enough for `lsc_preview`: no chart has more regions.
pub const PREVIEW_ROOM: usize = 32;

/// The bytes that are enough for `lsc_write`: no chart is saved as more.
pub const CHART_ROOM: usize = 1_317;

/// `lsc_judge`: 0 and the verdict, or the refusal's number and where; 12 for a short `out`.
pub fn judge(chart: &[u8], log: &[u8], out: &mut [u64]) -> u8 {
    // SAFETY: the pointers and lengths are those of slices borrowed for the whole call,
    // `out` alone as mutable.
    unsafe {
        raw::lsc_judge(
            chart.as_ptr(),
            chart.len(),
            log.as_ptr(),
            log.len(),
            out.as_mut_ptr(),
            out.len(),
        )
    }
}

/// `lsc_print`: 0, the text in `out` and its length in `written`; 12 for a short `out`.
pub fn print(input: &[u8], out: &mut [u8], written: &mut u64) -> u8 {
    // SAFETY: the pointers and lengths are those of slices borrowed for the whole call, and
    // `written` is a reference to one number; the mutable ones do not overlap.
    unsafe {
        raw::lsc_print(
            input.as_ptr(),
            input.len(),
            out.as_mut_ptr(),
            out.len(),
            written,
        )
    }
}

/// `lsc_live_size`: the bytes that a live monitor takes.
pub fn live_size(chart_length: usize) -> usize {
    // SAFETY: the function takes and returns a number and touches no memory of the caller's.
    unsafe { raw::lsc_live_size(chart_length) }
}

/// `lsc_open`: 0 and a fresh live monitor in `live`; the chart's refusal, or 12.
pub fn open(chart: &[u8], live: &mut [u8], at: &mut u64) -> u8 {
    // SAFETY: the pointers and lengths are those of slices borrowed for the whole call, and
    // `at` is a reference to one number; the mutable ones do not overlap.
    unsafe {
        raw::lsc_open(
            chart.as_ptr(),
            chart.len(),
            live.as_mut_ptr(),
            live.len(),
            at,
        )
    }
}

/// `lsc_feed_message`: an answer, 1 to 6, or a refusal, 20 to 23.
pub fn feed_message(live: &mut [u8], source: u8, destination: u8, label: u16, time: u32) -> u8 {
    // SAFETY: the pointer and length are those of a slice borrowed mutably for the call.
    unsafe {
        raw::lsc_feed_message(
            live.as_mut_ptr(),
            live.len(),
            source,
            destination,
            label,
            time,
        )
    }
}

/// `lsc_feed_message_why`: what `lsc_feed_message` gives, and the region and the term that
/// decided, both from 1, or zeros.
pub fn feed_message_why(
    live: &mut [u8],
    source: u8,
    destination: u8,
    label: u16,
    time: u32,
    region: &mut u64,
    term: &mut u64,
) -> u8 {
    // SAFETY: the pointer and length are those of a slice borrowed mutably for the call, and
    // `region` and `term` are references to one number each; none of them overlap.
    unsafe {
        raw::lsc_feed_message_why(
            live.as_mut_ptr(),
            live.len(),
            source,
            destination,
            label,
            time,
            region,
            term,
        )
    }
}

/// `lsc_feed_time`: an answer, 1 to 6, or a refusal, 20 to 23.
pub fn feed_time(live: &mut [u8], time: u32) -> u8 {
    // SAFETY: the pointer and length are those of a slice borrowed mutably for the call.
    unsafe { raw::lsc_feed_time(live.as_mut_ptr(), live.len(), time) }
}

/// `lsc_feed_log`: why it stopped, 0, 1, 22, 23, 24, 30, 31 or 32, and what was taken in `out`; or
/// 12, 20, 21.
pub fn feed_log(live: &mut [u8], kind: &mut [u8], log: &[u8], out: &mut [u64]) -> u8 {
    // SAFETY: the pointers and lengths are those of slices borrowed for the whole call, all but
    // `log` as mutable, so that none of them overlap.
    unsafe {
        raw::lsc_feed_log(
            live.as_mut_ptr(),
            live.len(),
            kind.as_mut_ptr(),
            kind.len(),
            log.as_ptr(),
            log.len(),
            out.as_mut_ptr(),
            out.len(),
        )
    }
}

/// `lsc_standing`: 0 and the verdict so far in `out`, or 20, 21, 12.
pub fn standing(live: &[u8], out: &mut [u64]) -> u8 {
    // SAFETY: the pointers and lengths are those of slices borrowed for the whole call,
    // `out` alone as mutable.
    unsafe { raw::lsc_standing(live.as_ptr(), live.len(), out.as_mut_ptr(), out.len()) }
}

/// `lsc_read_record`: 0 and the record at a place of a log, or that it is over; 12, 31 or 30.
pub fn read_record(log: &[u8], place: usize, out: &mut [u64]) -> u8 {
    // SAFETY: the pointers and lengths are those of slices borrowed for the whole call,
    // `out` alone as mutable; `place` is a number that need not be in the log.
    unsafe { raw::lsc_read_record(log.as_ptr(), log.len(), place, out.as_mut_ptr(), out.len()) }
}

/// `lsc_breaks`: 0 and whether the log breaks the chart, or the refusal's number and where; 12 for
/// a short `out`.
pub fn breaks(chart: &[u8], log: &[u8], out: &mut [u64]) -> u8 {
    // SAFETY: the pointers and lengths are those of slices borrowed for the whole call,
    // `out` alone as mutable.
    unsafe {
        raw::lsc_breaks(
            chart.as_ptr(),
            chart.len(),
            log.as_ptr(),
            log.len(),
            out.as_mut_ptr(),
            out.len(),
        )
    }
}

/// `lsc_preview`: 0 and a byte of `out` for each region, or 20, 21, 12, 22, 23; with 0 and with 12
/// the number of the chart's regions.
pub fn preview(live: &[u8], time: u32, out: &mut [u8], regions: &mut u64) -> u8 {
    // SAFETY: the pointers and lengths are those of slices borrowed for the whole call, and
    // `regions` is a reference to one number; the mutable ones do not overlap.
    unsafe {
        raw::lsc_preview(
            live.as_ptr(),
            live.len(),
            time,
            out.as_mut_ptr(),
            out.len(),
            regions,
        )
    }
}

/// `lsc_write`: 0, the saved chart in `out` and its length; the chart's refusal and its offset; or
/// 12 and the length needed.
pub fn write(chart: &[u8], out: &mut [u8], at: &mut u64) -> u8 {
    // SAFETY: the pointers and lengths are those of slices borrowed for the whole call, and
    // `at` is a reference to one number; the mutable ones do not overlap.
    unsafe { raw::lsc_write(chart.as_ptr(), chart.len(), out.as_mut_ptr(), out.len(), at) }
}
