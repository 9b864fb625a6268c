//! The static library's functions as C sees them; `include/lsc.h` documents each.
//!
//! A slice is a pointer and a length. [`crate::call`] has the same functions over Rust
//! slices, without `unsafe`.

extern "C" {
    pub fn lsc_judge(
        chart: *const u8,
        chart_length: usize,
        log: *const u8,
        log_length: usize,
        out: *mut u64,
        out_length: usize,
    ) -> u8;

    pub fn lsc_print(
        input: *const u8,
        input_length: usize,
        out: *mut u8,
        out_length: usize,
        written: *mut u64,
    ) -> u8;

    pub fn lsc_live_size(chart_length: usize) -> usize;

    pub fn lsc_open(
        chart: *const u8,
        chart_length: usize,
        live: *mut u8,
        live_length: usize,
        at: *mut u64,
    ) -> u8;

    pub fn lsc_feed_message(
        live: *mut u8,
        live_length: usize,
        source: u8,
        destination: u8,
        label: u16,
        time: u32,
    ) -> u8;

    pub fn lsc_feed_message_why(
        live: *mut u8,
        live_length: usize,
        source: u8,
        destination: u8,
        label: u16,
        time: u32,
        region: *mut u64,
        term: *mut u64,
    ) -> u8;

    pub fn lsc_feed_time(live: *mut u8, live_length: usize, time: u32) -> u8;

    pub fn lsc_feed_log(
        live: *mut u8,
        live_length: usize,
        kind: *mut u8,
        kind_length: usize,
        log: *const u8,
        log_length: usize,
        out: *mut u64,
        out_length: usize,
    ) -> u8;

    pub fn lsc_standing(
        live: *const u8,
        live_length: usize,
        out: *mut u64,
        out_length: usize,
    ) -> u8;

    pub fn lsc_read_record(
        log: *const u8,
        log_length: usize,
        place: usize,
        out: *mut u64,
        out_length: usize,
    ) -> u8;

    pub fn lsc_breaks(
        chart: *const u8,
        chart_length: usize,
        log: *const u8,
        log_length: usize,
        out: *mut u64,
        out_length: usize,
    ) -> u8;

    pub fn lsc_preview(
        live: *const u8,
        live_length: usize,
        time: u32,
        out: *mut u8,
        out_length: usize,
        regions: *mut u64,
    ) -> u8;

    pub fn lsc_write(
        chart: *const u8,
        chart_length: usize,
        out: *mut u8,
        out_length: usize,
        at: *mut u64,
    ) -> u8;
}
