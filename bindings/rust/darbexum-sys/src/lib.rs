//! The declarations of `darbexum.h`, which states the duties of the caller. The crate `darbexum` is safe.
#![no_std]

use core::ffi::c_void;

/// An engine, or none if the pointer is null.
#[repr(C)]
pub struct Handle {
    pub engine: *mut c_void,
}

#[repr(C)]
#[derive(Clone, Copy, Debug, Default, PartialEq, Eq)]
pub struct Counts {
    pub size: usize,
    pub arrived: u64,
    pub taken: u64,
    pub taken_by: [u64; 4],
    pub double: u64,
    pub unlike: u64,
    pub off_grid: u64,
    pub late: u64,
    pub ahead: u64,
    pub wrong_source: u64,
    pub got: u64,
    pub lost: u64,
    pub restarts: u64,
}

#[repr(C)]
#[derive(Clone, Copy, Debug, Default, PartialEq, Eq)]
pub struct PathCounts {
    pub size: usize,
    pub offered: u64,
    pub sent: u64,
    pub bad: u64,
    pub wrong_type: u64,
    pub wrong_length: u64,
    pub full: u64,
}

#[repr(C)]
#[derive(Clone, Copy, Debug, Default, PartialEq, Eq)]
pub struct Output {
    pub size: usize,
    pub start: i64,
    pub sample_octets: u32,
    pub channels: u32,
    pub frames: u32,
    pub payload_type: u32,
    pub ssrc: u32,
    pub datagram_octets: u32,
}

#[repr(C)]
#[derive(Clone, Copy, Debug, Default, PartialEq, Eq)]
pub struct Stream {
    pub size: usize,
    pub sample_octets: u32,
    pub channels: u32,
    pub frames: u32,
    pub payload_type: u32,
    pub paths: u32,
    pub latency: u32,
    pub window: u32,
    pub clock: u32,
}

extern "C" {
    pub fn darbexum_open(handle: *mut Handle, config: *const u8, config_len: usize, text: *mut u8, text_len: usize) -> i32;
    pub fn darbexum_free(handle: *mut Handle);
    pub fn darbexum_arrive(handle: *mut Handle, stream: usize, path: u8, octets: *const u8, len: usize) -> i32;
    pub fn darbexum_turn(handle: *mut Handle, now: i64, out: *mut u8, len: usize) -> isize;
    pub fn darbexum_close(handle: *mut Handle) -> i32;
    pub fn darbexum_drain(handle: *mut Handle, out: *mut u8, len: usize) -> isize;
    pub fn darbexum_next_deadline(handle: *mut Handle, reading: *mut i64) -> i32;
    pub fn darbexum_time(handle: *mut Handle, time: *mut i64) -> i32;
    pub fn darbexum_change_gains(handle: *mut Handle, at: i64, gains: *const i32, len: usize) -> i32;
    pub fn darbexum_next_block_start(handle: *mut Handle, start: *mut i64) -> i32;
    pub fn darbexum_settled(handle: *mut Handle) -> i32;
    pub fn darbexum_streams(handle: *mut Handle) -> usize;
    pub fn darbexum_output(handle: *mut Handle, output: *mut Output) -> i32;
    pub fn darbexum_stream(handle: *mut Handle, stream: usize, out: *mut Stream) -> i32;
    pub fn darbexum_counts(handle: *mut Handle, stream: usize, counts: *mut Counts) -> i32;
    pub fn darbexum_path_counts(handle: *mut Handle, stream: usize, path: u8, counts: *mut PathCounts) -> i32;
    pub fn darbexum_saturated(handle: *mut Handle, channel: usize, count: *mut u64) -> i32;
    pub fn darbexum_inputs(handle: *mut Handle, out: *mut i32, len: usize) -> isize;
    pub fn darbexum_missing(handle: *mut Handle, streams: *mut usize) -> i32;
    pub fn darbexum_version() -> u32;
    pub fn darbexum_fault_text(code: i32, out: *mut u8, len: usize) -> usize;
}
