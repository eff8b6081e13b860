//! The port's C face (include/mishkeldur.h), as far as it is compared here.
#![allow(dead_code)]

unsafe extern "C" {
    pub fn mk_lenenc_int(s: *const u8, s_len: usize, at: usize, value: *mut u64, next: *mut usize) -> u8;
    pub fn mk_lenenc_str(s: *const u8, s_len: usize, at: usize, place: *mut usize, len: *mut usize) -> u8;
    pub fn mk_lenenc_int_len(v: u64) -> usize;
    pub fn mk_put_lenenc_int(dst: *mut u8, dst_len: usize, at: usize, v: u64, next: *mut usize) -> u8;
    pub fn mk_put_lenenc_str(dst: *mut u8, dst_len: usize, at: usize, src: *const u8, src_len: usize, next: *mut usize) -> u8;
    pub fn mk_read_time(
        s: *const u8, s_len: usize, at: usize, neg: *mut u8, days: *mut u32, hours: *mut u8, minutes: *mut u8, seconds: *mut u8,
        micros: *mut u32, next: *mut usize,
    ) -> u8;
    pub fn mk_read_duration(s: *const u8, s_len: usize, at: usize, micros: *mut i64, next: *mut usize) -> u8;
    pub fn mk_duration_of(neg: u8, days: u32, hours: u8, minutes: u8, seconds: u8, micros: u32, out: *mut i64) -> u8;
    pub fn mk_read_value(
        s: *const u8, s_len: usize, at: usize, column_type: u8, is_unsigned: u8, kind: *mut u8, integer: *mut i64, bits: *mut u64,
        place: *mut usize, len: *mut usize, next: *mut usize,
    ) -> u8;
    pub fn mk_read_text(s: *const u8, s_len: usize, at: usize, kind: *mut u8, place: *mut usize, len: *mut usize, next: *mut usize) -> u8;
    pub fn mk_read_date(
        s: *const u8, s_len: usize, at: usize, year: *mut u16, month: *mut u8, day: *mut u8, hour: *mut u8, minutes: *mut u8,
        seconds: *mut u8, micros: *mut u32, next: *mut usize,
    ) -> u8;
    pub fn mk_put_int(dst: *mut u8, dst_len: usize, at: usize, v: i64, next: *mut usize) -> u8;
    pub fn mk_put_uint(dst: *mut u8, dst_len: usize, at: usize, v: u64, next: *mut usize) -> u8;
    pub fn mk_put_float(dst: *mut u8, dst_len: usize, at: usize, bits: u32, next: *mut usize) -> u8;
    pub fn mk_put_double(dst: *mut u8, dst_len: usize, at: usize, bits: u64, next: *mut usize) -> u8;
    pub fn mk_put_date(
        dst: *mut u8, dst_len: usize, at: usize, year: u16, month: u8, day: u8, hour: u8, minutes: u8, seconds: u8, micros: u32,
        next: *mut usize,
    ) -> u8;
    pub fn mk_put_time(
        dst: *mut u8, dst_len: usize, at: usize, neg: u8, days: u32, hours: u8, minutes: u8, seconds: u8, micros: u32, next: *mut usize,
    ) -> u8;
    pub fn mk_read_row(
        row: *const u8, row_len: usize, types: *const u8, types_len: usize, signs: *const u8, signs_len: usize, starts: *mut usize,
        starts_len: usize, nulls: *mut usize, used: *mut usize,
    ) -> u8;
    pub fn mk_escaped(
        dst: *mut u8, dst_len: usize, at: usize, input: *const u8, input_len: usize, no_backslash_escape: u8, next: *mut usize,
    ) -> u8;
    pub fn mk_escaped_len(input: *const u8, input_len: usize, no_backslash_escape: u8, len: *mut usize) -> u8;
}

#[cfg(packets)]
unsafe extern "C" {
    pub fn mk_state_size() -> usize;
    pub fn mk_open(state: *mut u8, state_len: usize, limit: usize) -> u8;
    pub fn mk_frames_on(state: *mut u8, state_len: usize) -> u8;
    pub fn mk_reset_seq_id(state: *mut u8, state_len: usize) -> u8;
    pub fn mk_sync_seq_id(state: *mut u8, state_len: usize) -> u8;
    pub fn mk_look(
        state: *const u8, state_len: usize, number: *mut u8, frame: *mut u8, unread: *mut usize, framed: *mut u8, closed: *mut u8,
    ) -> u8;
    pub fn mk_read(
        state: *mut u8, state_len: usize, src: *const u8, src_len: usize, staging: *mut u8, staging_len: usize, packet: *mut u8,
        packet_len: usize, used: *mut usize, len: *mut usize,
    ) -> u8;
    pub fn mk_write(
        state: *mut u8, state_len: usize, packet: *const u8, packet_len: usize, dst: *mut u8, dst_len: usize, written: *mut usize,
    ) -> u8;
    pub fn mk_stream_open(state: *mut u8, state_len: usize, limit: usize) -> u8;
    pub fn mk_stream_read(
        state: *mut u8, state_len: usize, src: *const u8, src_len: usize, used: *mut usize, place: *mut usize, len: *mut usize,
        ends: *mut u8,
    ) -> u8;
}

pub const STATE_SIZE: usize = 128;
