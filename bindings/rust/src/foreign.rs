//! The library's functions, as include/wormstrand.h has them. A slice is a pointer and then its length.

use crate::stream::Totals;

extern "C" {
    pub fn ws_empty(n: usize, c: usize, store: *mut u32, store_len: usize) -> u64;

    pub fn ws_open(
        n: usize,
        c: usize,
        d: usize,
        store: *mut u32,
        store_len: usize,
        line: u32,
        trip: u32,
    ) -> u64;

    pub fn ws_close(
        n: usize,
        c: usize,
        d: usize,
        store: *mut u32,
        store_len: usize,
        line: u32,
        trip: u32,
    ) -> u64;

    pub fn ws_link(
        n: usize,
        c: usize,
        d: usize,
        store: *mut u32,
        store_len: usize,
        spare: *mut u32,
        spare_len: usize,
        waiting: *mut u32,
        waiting_len: usize,
        line_a: u32,
        trip_a: u32,
        line_b: u32,
        trip_b: u32,
    ) -> u64;

    pub fn ws_unlink(
        n: usize,
        c: usize,
        d: usize,
        store: *mut u32,
        store_len: usize,
        line_a: u32,
        trip_a: u32,
        line_b: u32,
        trip_b: u32,
    ) -> u64;

    pub fn ws_ask(
        n: usize,
        c: usize,
        d: usize,
        store: *const u32,
        store_len: usize,
        line_a: u32,
        trip_a: u32,
        line_b: u32,
        trip_b: u32,
    ) -> u64;

    pub fn ws_reading(
        n: usize,
        c: usize,
        d: usize,
        store: *const u32,
        store_len: usize,
        places: *const u32,
        places_len: usize,
    ) -> u64;

    pub fn ws_stream(
        n: usize,
        c: usize,
        d: usize,
        store: *mut u32,
        store_len: usize,
        spare: *mut u32,
        spare_len: usize,
        waiting: *mut u32,
        waiting_len: usize,
        bytes: *const u8,
        bytes_len: usize,
        answers: *mut u32,
        answers_len: usize,
        totals: *mut Totals,
    ) -> u64;
}
