//! The calls of `include/heskavo_host.h` that the agent makes, as safe Rust over slices.

#[repr(C)]
#[derive(Clone, Copy, Debug, Default, PartialEq, Eq)]
pub struct Verdict {
    pub layer: u32,
    pub number: u32,
    pub unit: u32,
}

#[repr(C)]
#[derive(Clone, Copy, Debug, Default, PartialEq, Eq)]
pub struct Cost {
    pub steps: u64,
    pub calls: u64,
}

#[repr(C)]
#[derive(Clone, Copy, Debug, Default, PartialEq, Eq)]
pub struct RingCost {
    pub records: u64,
    pub bytes: u64,
    pub held_records: u64,
    pub held_bytes: u64,
}

#[repr(C)]
#[derive(Clone, Copy, Debug, Default, PartialEq, Eq)]
pub struct Record {
    pub offset: u64,
    pub span: u64,
    pub len: u32,
    pub discarded: u32,
    pub fault: u32,
}

pub const DONE: u32 = 0;
pub const REFUSED: u32 = 1;
pub const MORE: u32 = 5;
pub const FAULT: u32 = 6;

extern "C" {
    fn heskavo_cost(
        program: *const u8,
        program_len: usize,
        ctx_len: u32,
        cost: *mut Cost,
        ring_costs: *mut RingCost,
        rings: usize,
        verdict: *mut Verdict,
    ) -> u32;
    fn heskavo_tape_next(bytes: *const u8, bytes_len: usize, size: u64, position: u64, record: *mut Record) -> u32;
}

/// The status of a program for a context of `ctx_len` bytes and as many rings as `rings` has places; where it is `DONE` also what it can cost at most, what it
/// asks of each ring in its place, and where it is `REFUSED` the verdict.
pub fn cost(program: &[u8], ctx_len: u32, rings: &mut [RingCost]) -> (u32, Cost, Verdict) {
    let (mut cost, mut verdict) = (Cost::default(), Verdict::default());
    // SAFETY: each pointer and length are those of one slice, which is borrowed for the call, and the cost and the verdict are this function's own.
    let status = unsafe { heskavo_cost(program.as_ptr(), program.len(), ctx_len, &mut cost, rings.as_mut_ptr(), rings.len(), &mut verdict) };
    (status, cost, verdict)
}

/// What the bytes begin with, of a tape of a ring of `size` bytes, where the next record stands at `position`.
pub fn tape_next(bytes: &[u8], size: u64, position: u64) -> (u32, Record) {
    let mut record = Record::default();
    // SAFETY: as above.
    let status = unsafe { heskavo_tape_next(bytes.as_ptr(), bytes.len(), size, position, &mut record) };
    (status, record)
}
