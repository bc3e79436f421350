//! The exports of `libcapi.a`, as `include/cueledger.h` has them.
//!
//! Each returns a [`Refusal`](crate::Refusal)'s number, 0 where the call is accepted; a refused call gives 0 for every value. Only
//! `cue_traffic` also returns 23, and then both values. Image, table, log, descriptors, sizes and values must be valid for the call and must
//! not overlap. No pointer is kept.

#![allow(missing_docs)]

extern "C" {
    pub fn cue_setup(image: *mut u8, image_len: usize, table: *mut u64, table_len: usize, slot_exponent: u32) -> u32;
    pub fn cue_allocate(image: *mut u8, image_len: usize, table: *mut u64, table_len: usize, size: u32, r#type: u16, pointer: *mut u64) -> u32;
    pub fn cue_allocate_for(image: *mut u8, image_len: usize, table: *mut u64, table_len: usize, size: u32, r#type: u16, cue: u32, pointer: *mut u64) -> u32;
    pub fn cue_move(image: *const u8, image_len: usize, table: *const u64, table_len: usize, pointer: u64, distance: i64, moved: *mut u64) -> u32;
    pub fn cue_distances(image: *const u8, image_len: usize, table: *const u64, table_len: usize, pointer: u64, from_start: *mut i64, to_end: *mut i64) -> u32;
    pub fn cue_has_type(
        image: *const u8,
        image_len: usize,
        table: *const u64,
        table_len: usize,
        descriptors: *const u8,
        descriptors_len: usize,
        pointer: u64,
        wanted: u16,
        yes: *mut u64,
    ) -> u32;
    pub fn cue_load(image: *const u8, image_len: usize, table: *const u64, table_len: usize, pointer: u64, width: u64, value: *mut u64) -> u32;
    pub fn cue_store(image: *mut u8, image_len: usize, table: *const u64, table_len: usize, pointer: u64, width: u64, value: u64) -> u32;
    pub fn cue_free(image: *mut u8, image_len: usize, table: *mut u64, table_len: usize, pointer: u64) -> u32;
    pub fn cue_release(image: *mut u8, image_len: usize, table: *mut u64, table_len: usize, cue: u32, count: *mut u64) -> u32;
    pub fn cue_fill(image: *mut u8, image_len: usize, table: *const u64, table_len: usize, pointer: u64, length: u32, value: u8) -> u32;
    pub fn cue_copy(image: *mut u8, image_len: usize, table: *const u64, table_len: usize, target: u64, source: u64, length: u32) -> u32;
    pub fn cue_compare(image: *const u8, image_len: usize, table: *const u64, table_len: usize, left: u64, right: u64, length: u32, order: *mut i64) -> u32;
    pub fn cue_copy_text(image: *mut u8, image_len: usize, table: *const u64, table_len: usize, target: u64, source: u64, copied: *mut u64) -> u32;
    pub fn cue_tally(
        image: *const u8,
        image_len: usize,
        table: *const u64,
        table_len: usize,
        objects: *mut u64,
        live_bytes: *mut u64,
        free_bytes: *mut u64,
        overhead_bytes: *mut u64,
    ) -> u32;
    pub fn cue_free_total(image: *const u8, image_len: usize, table: *const u64, table_len: usize, total: *mut u64) -> u32;
    pub fn cue_traffic(
        image: *mut u8,
        image_len: usize,
        table: *mut u64,
        table_len: usize,
        slot_exponent: u32,
        state: u64,
        draws: u64,
        log: *mut u8,
        log_len: usize,
        state_after: *mut u64,
        written: *mut u64,
    ) -> u32;
    pub fn cue_order(
        sizes: *const u32,
        count: usize,
        slot_exponent: u32,
        budget: u64,
        order: *mut u64,
        large: *mut u64,
        tried: *mut u64,
        floor: *mut u64,
    ) -> u32;
    pub fn cue_overhead(
        sizes: *const u32,
        count: usize,
        raw: *mut u64,
        with_headers: *mut u64,
        padded: *mut u64,
        end: *mut u64,
        headers_extra: *mut u64,
        headers_over: *mut u64,
        padded_extra: *mut u64,
        padded_over: *mut u64,
    ) -> u32;
}
