//! The declarations of `heskavo_host.h` that an engine needs, as they are. The crate `heskavo` has safe Rust over them.
#![no_std]

/// A handle to an engine; null if it is closed.
#[repr(C)]
#[derive(Debug)]
pub struct Engine {
    pub inside: *mut u8,
}

/// Why a program is refused, in the numbers of the header.
#[repr(C)]
#[derive(Clone, Copy, Debug, Default, PartialEq, Eq)]
pub struct Verdict {
    pub layer: u32,
    pub number: u32,
    pub unit: u32,
}

/// A record that was taken from a ring.
#[repr(C)]
#[derive(Clone, Copy, Debug, Default, PartialEq, Eq)]
pub struct TakenRecord {
    pub position: u64,
    pub len: u32,
    pub discarded: u32,
}

/// What a ring counts since it was opened.
#[repr(C)]
#[derive(Clone, Copy, Debug, Default, PartialEq, Eq)]
pub struct RingCounts {
    pub made: u64,
    pub refused: u64,
    pub consumed: u64,
    pub discarded: u64,
    pub waiting: u64,
    pub busy: u64,
}

pub const DONE: u32 = 0;
pub const REFUSED: u32 = 1;
pub const ARGUMENT: u32 = 2;
pub const MEMORY: u32 = 3;
pub const ROOM: u32 = 4;
pub const MORE: u32 = 5;
pub const EMPTY: u32 = 8;
pub const FULL: u32 = 9;

extern "C" {
    pub fn heskavo_version() -> u32;
    pub fn heskavo_engine_open(sizes: *const u64, rings: usize, ctx_len: u32, engine: *mut Engine) -> u32;
    pub fn heskavo_engine_load(engine: *mut Engine, program: *const u8, program_len: usize, number: *mut u32, verdict: *mut Verdict) -> u32;
    pub fn heskavo_engine_run(engine: *mut Engine, number: u32, context: *const u8, context_len: usize, value: *mut u64) -> u32;
    pub fn heskavo_engine_put(engine: *mut Engine, ring: u32, bytes: *const u8, bytes_len: usize, flags: u64) -> u32;
    pub fn heskavo_engine_take(engine: *mut Engine, ring: u32, buffer: *mut u8, buffer_len: usize, record: *mut TakenRecord) -> u32;
    pub fn heskavo_engine_query(engine: *mut Engine, ring: u32, what: u64, answer: *mut u64) -> u32;
    pub fn heskavo_engine_counts(engine: *mut Engine, ring: u32, counts: *mut RingCounts) -> u32;
    pub fn heskavo_engine_close(engine: *mut Engine);
}
