//! Verified eBPF programs that write into BPF ring buffers: safe Rust over the proved library for C.
//!
//! An [`Engine`] owns rings and programs. It has no lock: to share it among threads, put it into a [`std::sync::Mutex`].
//!
//! ```no_run
//! use heskavo::{Engine, Error};
//!
//! # fn main() -> Result<(), Error> {
//! let mut engine = Engine::open(&[65_536], 16)?;
//! engine.put(0, b"hello", 0)?;
//! if let Some(record) = engine.take(0)? {
//!     assert_eq!(record.bytes, b"hello");
//! }
//! # Ok(())
//! # }
//! ```

use heskavo_sys as sys;
use std::fmt;
use std::ptr::null_mut;

pub use heskavo_sys::{RingCounts, Verdict};

/// The number of a program in its engine.
#[derive(Clone, Copy, Debug, PartialEq, Eq, Hash)]
pub struct ProgramId(u32);

/// Why a call did nothing, or not all that it is for.
#[derive(Clone, Copy, Debug, PartialEq, Eq)]
pub enum Error {
    /// The program was refused, for this reason.
    Refused(Verdict),
    /// A size, a length, a flag or the number of a ring or a program is out of bounds.
    Argument,
    /// There was no memory. The engine is as it was.
    Memory,
    /// The ring has no room for the record.
    Full,
    /// The ring's next record is neither submitted nor discarded yet.
    Busy,
}

impl fmt::Display for Error {
    fn fmt(&self, f: &mut fmt::Formatter<'_>) -> fmt::Result {
        match self {
            Error::Refused(verdict) => write!(f, "program refused: layer {}, number {}, at unit {}", verdict.layer, verdict.number, verdict.unit),
            Error::Argument => f.write_str("argument out of bounds"),
            Error::Memory => f.write_str("out of memory"),
            Error::Full => f.write_str("no room in the ring"),
            Error::Busy => f.write_str("the next record is busy"),
        }
    }
}

impl std::error::Error for Error {}

/// A record that was taken from a ring.
#[derive(Clone, Debug, PartialEq, Eq)]
pub struct Record {
    /// Its position, in bytes since the ring was opened.
    pub position: u64,
    /// Its length; of a discarded record, the length that it had.
    pub len: u32,
    /// Whether it was discarded. Then it has no bytes.
    pub discarded: bool,
    /// Its bytes.
    pub bytes: Vec<u8>,
}

/// What [`Engine::query`] asks a ring for.
#[derive(Clone, Copy, Debug, PartialEq, Eq)]
pub enum Query {
    /// The bytes between the two positions.
    AvailableData = 0,
    /// The size of the ring in bytes.
    RingSize = 1,
    /// The position of the consumer.
    ConsumerPosition = 2,
    /// The position of the producer.
    ProducerPosition = 3,
}

/// Rings and verified programs that stay, for one thread at a time.
///
/// An engine is `Send` and not `Sync`: it may move to another thread, and calls take it by `&mut`.
#[derive(Debug)]
pub struct Engine {
    handle: sys::Engine,
}

// SAFETY: an engine is one block of the program's heap that no thread is named in, and the library lets one thread after another use it.
unsafe impl Send for Engine {}

// The error that a status stands for.
fn error_of(status: u32) -> Error {
    match status {
        sys::MEMORY => Error::Memory,
        sys::FULL => Error::Full,
        sys::MORE => Error::Busy,
        _ => Error::Argument,
    }
}

// Whether the call did what it is for.
fn done(status: u32) -> Result<(), Error> {
    if status == sys::DONE { Ok(()) } else { Err(error_of(status)) }
}

impl Engine {
    /// Opens an engine with a ring of each of these sizes, for programs with contexts of `ctx_len` bytes.
    pub fn open(sizes: &[u64], ctx_len: u32) -> Result<Engine, Error> {
        let mut engine = Engine { handle: sys::Engine { inside: null_mut() } };
        // SAFETY: the pointer and length are those of one slice, and the handle is closed and this function's own.
        done(unsafe { sys::heskavo_engine_open(sizes.as_ptr(), sizes.len(), ctx_len, &mut engine.handle) })?;
        Ok(engine)
    }

    /// Verifies a program, its bytes as RFC 9669 lays them out, and adds it.
    pub fn load(&mut self, program: &[u8]) -> Result<ProgramId, Error> {
        let (mut number, mut verdict) = (0, Verdict::default());
        // SAFETY: as above, and the handle is open.
        let status = unsafe { sys::heskavo_engine_load(&mut self.handle, program.as_ptr(), program.len(), &mut number, &mut verdict) };
        if status == sys::REFUSED {
            return Err(Error::Refused(verdict));
        }
        done(status).map(|()| ProgramId(number))
    }

    /// Runs a program to its end over the rings as the calls before left them, and returns what it ended with.
    pub fn run(&mut self, program: ProgramId, context: &[u8]) -> Result<u64, Error> {
        let mut value = 0;
        // SAFETY: as above.
        done(unsafe { sys::heskavo_engine_run(&mut self.handle, program.0, context.as_ptr(), context.len(), &mut value) })?;
        Ok(value)
    }

    /// Outputs a copy of the bytes to a ring as one record, with the flags of `bpf_ringbuf_output`.
    pub fn put(&mut self, ring: u32, bytes: &[u8], flags: u64) -> Result<(), Error> {
        // SAFETY: as above.
        done(unsafe { sys::heskavo_engine_put(&mut self.handle, ring, bytes.as_ptr(), bytes.len(), flags) })
    }

    /// Takes the next record of a ring, or returns `None` if it has none.
    pub fn take(&mut self, ring: u32) -> Result<Option<Record>, Error> {
        let mut bytes = Vec::new();
        loop {
            let mut found = sys::TakenRecord::default();
            // SAFETY: as above; the vector's bytes are initialized.
            let status = unsafe { sys::heskavo_engine_take(&mut self.handle, ring, bytes.as_mut_ptr(), bytes.len(), &mut found) };
            match status {
                sys::EMPTY => return Ok(None),
                sys::ROOM => bytes.resize(found.len as usize, 0),
                _ => {
                    done(status)?;
                    let discarded = found.discarded != 0;
                    bytes.truncate(if discarded { 0 } else { found.len as usize });
                    return Ok(Some(Record { position: found.position, len: found.len, discarded, bytes }));
                }
            }
        }
    }

    /// Answers a query of a ring, as `bpf_ringbuf_query` does.
    pub fn query(&mut self, ring: u32, what: Query) -> Result<u64, Error> {
        let mut answer = 0;
        // SAFETY: as above.
        done(unsafe { sys::heskavo_engine_query(&mut self.handle, ring, what as u64, &mut answer) })?;
        Ok(answer)
    }

    /// Returns what a ring counts since it was opened.
    pub fn counts(&mut self, ring: u32) -> Result<RingCounts, Error> {
        let mut counts = RingCounts::default();
        // SAFETY: as above.
        done(unsafe { sys::heskavo_engine_counts(&mut self.handle, ring, &mut counts) })?;
        Ok(counts)
    }
}

impl Drop for Engine {
    fn drop(&mut self) {
        // SAFETY: as above; a closed handle is left as it is.
        unsafe { sys::heskavo_engine_close(&mut self.handle) }
    }
}
