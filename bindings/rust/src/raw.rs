//! The declarations of `bindings/relaymarten.h`, which says what a caller keeps to: pointers, lengths, and numbers for answers.
//! `bindings/check` compares them with the library.
#![allow(clippy::missing_safety_doc)]

use crate::{MAX_CHECKS, MAX_ROWS, WEIGHTS};

#[rustfmt::skip]
#[link(name = "relaymarten", kind = "static")]
extern "C" {
    pub fn relay_version() -> u32;
    pub fn relay_describe(
        n: u32, k: u32, rows: *const u32, rows_len: usize, reduced: *mut [u32; MAX_ROWS], checks: *mut [u32; MAX_CHECKS],
        weight_counts: *mut [u32; WEIGHTS], dmin: *mut u32, lightest: *mut u32, value: *mut usize,
    ) -> u32;
    pub fn relay_leaders(
        n: u32, k: u32, rows: *const u32, rows_len: usize, leaders: *mut u32, leaders_len: usize, checks: *mut [u32; MAX_CHECKS],
        tried: *mut u32, value: *mut usize,
    ) -> u32;
    pub fn relay_encode(
        n: u32, k: u32, rows: *const u32, rows_len: usize, messages: *const u32, messages_len: usize,
        out: *mut u32, out_len: usize, value: *mut usize,
    ) -> u32;
    pub fn relay_message(
        n: u32, k: u32, rows: *const u32, rows_len: usize, words: *const u32, words_len: usize,
        out: *mut u32, out_len: usize, value: *mut usize,
    ) -> u32;
    pub fn relay_decode(
        n: u32, k: u32, rows: *const u32, rows_len: usize, within: u32, radius: u32, words: *const u32, words_len: usize,
        out: *mut u32, out_len: usize, counts: *mut u8, counts_len: usize, work: *mut u32, work_len: usize, value: *mut usize,
    ) -> u32;
    pub fn relay_interleave(
        n: u32, k: u32, rows: *const u32, rows_len: usize, words: *const u32, words_len: usize,
        bits: *mut u8, bits_len: usize, value: *mut usize,
    ) -> u32;
    pub fn relay_deinterleave(
        n: u32, k: u32, rows: *const u32, rows_len: usize, depth: usize, bits: *const u8, bits_len: usize,
        out: *mut u32, out_len: usize, value: *mut usize,
    ) -> u32;
    pub fn relay_decode_interleaved(
        n: u32, k: u32, rows: *const u32, rows_len: usize, radius: u32, depth: usize, bits: *const u8, bits_len: usize,
        out: *mut u32, out_len: usize, counts: *mut u8, counts_len: usize, work: *mut u32, work_len: usize, value: *mut usize,
    ) -> u32;
    pub fn relay_golay_encode(message: u32, word: *mut u32, value: *mut usize) -> u32;
    pub fn relay_golay_decode(received: u32, word: *mut u32, count: *mut u8, value: *mut usize) -> u32;
    pub fn relay_golay_message(codeword: u32, message: *mut u32, value: *mut usize) -> u32;
    pub fn relay_hsiao_encode(data: u64) -> u8;
    pub fn relay_hsiao_decode(check: *mut u8, data: *mut u64) -> u8;
    pub fn relay_hsiao_message(check: u8, data: u64, message: *mut u64, value: *mut usize) -> u32;
    pub fn relay_hsiao_width_encode(width: u32, data: u64, check: *mut u8, value: *mut usize) -> u32;
    pub fn relay_hsiao_width_decode(
        width: u32, check: u8, data: u64, word_check: *mut u8, word_data: *mut u64, count: *mut u8, value: *mut usize,
    ) -> u32;
    pub fn relay_hsiao_width_message(width: u32, check: u8, data: u64, message: *mut u64, value: *mut usize) -> u32;
    pub fn relay_run(sheet: *const u8, sheet_len: usize, out: *mut u8, out_len: usize) -> usize;
}
