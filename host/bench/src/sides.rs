//! The four sides' entries.
#![allow(dead_code)]

use std::ffi::c_int;

unsafe extern "C" {
    pub fn pc_size() -> usize;
    pub fn pc_open(c: *mut u8, limit: usize);
    pub fn pc_frames_on(c: *mut u8);
    pub fn pc_read(
        c: *mut u8, src: *const u8, n: usize, staging: *mut u8, sroom: usize, packet: *mut u8, room: usize, used: *mut usize,
        len: *mut usize,
    ) -> c_int;
    pub fn pc_write(c: *mut u8, p: *const u8, n: usize, d: *mut u8, room: usize, written: *mut usize) -> c_int;
    pub fn pc_escaped(d: *mut u8, s: *const u8, n: usize) -> usize;
    pub fn pc_lenenc_int(s: *const u8, n: usize, at: usize, value: *mut u64, next: *mut usize) -> c_int;
    pub fn pc_put_lenenc_int(d: *mut u8, n: usize, at: usize, v: u64, next: *mut usize) -> c_int;
    pub fn pc_read_row(
        s: *const u8, n: usize, types: *const u8, columns: usize, starts: *mut usize, nulls: *mut usize, used: *mut usize,
    ) -> c_int;
}

// The port's entries, as the oracle declares them.
#[cfg(archive)]
#[path = "../../oracle/src/face.rs"]
mod face;
#[cfg(archive)]
pub use face::*;

#[cfg(mariadb)]
unsafe extern "C" {
    pub fn mysql_init(mysql: *mut u8) -> *mut u8;
    pub fn mysql_real_escape_string(mysql: *mut u8, to: *mut u8, from: *const u8, length: std::ffi::c_ulong) -> std::ffi::c_ulong;
    pub fn mysql_character_set_name(mysql: *mut u8) -> *const std::ffi::c_char;
}
