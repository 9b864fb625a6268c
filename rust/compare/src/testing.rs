//! The functions of `liblsc_test.a`, which only tests use, over slices: a chart and a monitor
//! by their images, the check of a whole log, whether it breaks a chart's image, and saving one.
//!
//! They have no preconditions beyond valid pointers and lengths: they are proved safe for
//! every content of the bytes lent to them. They keep no pointer and no state.
#![allow(unsafe_code)]

extern "C" {
    fn lsc_test_new(
        chart: *const u8,
        chart_length: usize,
        monitor: *mut u8,
        monitor_length: usize,
    ) -> u8;

    fn lsc_test_feed_message(
        chart: *const u8,
        chart_length: usize,
        monitor: *mut u8,
        monitor_length: usize,
        source: u8,
        destination: u8,
        label: u16,
        time: u32,
    ) -> u8;

    fn lsc_test_feed_time(
        chart: *const u8,
        chart_length: usize,
        monitor: *mut u8,
        monitor_length: usize,
        time: u32,
    ) -> u8;

    fn lsc_test_check(log: *const u8, log_length: usize) -> u32;

    fn lsc_test_breaks(
        chart: *const u8,
        chart_length: usize,
        log: *const u8,
        log_length: usize,
    ) -> u8;

    fn lsc_test_write(
        chart: *const u8,
        chart_length: usize,
        out: *mut u8,
        out_length: usize,
        at: *mut u64,
    ) -> u8;
}

/// `lsc_test_new`: a monitor of zeros and 0, or 20 for no chart; 12 for a short `monitor`.
pub fn new(chart: &[u8], monitor: &mut [u8]) -> u8 {
    // SAFETY: the pointers and lengths are those of slices borrowed for the whole call,
    // `monitor` alone as mutable.
    unsafe {
        lsc_test_new(
            chart.as_ptr(),
            chart.len(),
            monitor.as_mut_ptr(),
            monitor.len(),
        )
    }
}

/// `lsc_test_feed_message`: an answer, 1 to 6, or a refusal, 20 to 23, or 12.
pub fn feed_message(
    chart: &[u8],
    monitor: &mut [u8],
    source: u8,
    destination: u8,
    label: u16,
    time: u32,
) -> u8 {
    // SAFETY: the pointers and lengths are those of slices borrowed for the whole call,
    // `monitor` alone as mutable.
    unsafe {
        lsc_test_feed_message(
            chart.as_ptr(),
            chart.len(),
            monitor.as_mut_ptr(),
            monitor.len(),
            source,
            destination,
            label,
            time,
        )
    }
}

/// `lsc_test_feed_time`: an answer, 1 to 6, or a refusal, 20 to 23, or 12.
pub fn feed_time(chart: &[u8], monitor: &mut [u8], time: u32) -> u8 {
    // SAFETY: the pointers and lengths are those of slices borrowed for the whole call,
    // `monitor` alone as mutable.
    unsafe {
        lsc_test_feed_time(
            chart.as_ptr(),
            chart.len(),
            monitor.as_mut_ptr(),
            monitor.len(),
            time,
        )
    }
}

/// `lsc_test_check`: the records of a log that has no fault, 1,000,001 for any other.
pub fn check(log: &[u8]) -> u32 {
    // SAFETY: the pointer and the length are those of a slice borrowed for the whole call.
    unsafe { lsc_test_check(log.as_ptr(), log.len()) }
}

/// `lsc_test_breaks`: 1 if the log breaks the chart, 0 if not; or a refusal, 20 for no chart.
pub fn breaks(chart: &[u8], log: &[u8]) -> u8 {
    // SAFETY: the pointers and lengths are those of slices borrowed for the whole call.
    unsafe { lsc_test_breaks(chart.as_ptr(), chart.len(), log.as_ptr(), log.len()) }
}

/// `lsc_test_write`: 0, the saved chart in `out` and its length; 20 for no chart, and 0; or 12 and
/// the length needed.
pub fn write(chart: &[u8], out: &mut [u8], at: &mut u64) -> u8 {
    // SAFETY: the pointers and lengths are those of slices borrowed for the whole call, and
    // `at` is a reference to one number; the mutable ones do not overlap.
    unsafe { lsc_test_write(chart.as_ptr(), chart.len(), out.as_mut_ptr(), out.len(), at) }
}
