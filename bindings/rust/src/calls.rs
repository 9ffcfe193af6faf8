//! The exported calls, as they cross. All `unsafe` code of the crate stands here.

use crate::Report;
use crate::error::{Cause, Fault, Reason, Refusal};

#[repr(C)]
#[derive(Clone, Copy)]
pub(crate) struct RawSetup {
    pub mapping: u64,
    pub format: u64,
    pub cache: u64,
    pub registers: [u64; 5],
}

/// `struct card_answer`, whose parts are all `uint64_t`.
#[repr(C)]
pub(crate) struct RawAnswer {
    reason: u64,
    number: u64,
    cause: u64,
    depth: u64,
    place: u64,
    done: u64,
    lookups: u64,
    fills: u64,
    reads: u64,
    hits: u64,
    prefetches: u64,
    share: u64,
}

unsafe extern "C" {
    fn card_check(setup: RawSetup, bytes: *mut u8, bytes_length: usize, board: *mut u8, board_length: usize) -> RawAnswer;

    fn card_read(
        setup: RawSetup,
        bytes: *mut u8,
        bytes_length: usize,
        board: *mut u8,
        board_length: usize,
        address: u64,
        buffer: *mut u8,
        buffer_length: usize,
    ) -> RawAnswer;

    fn card_write(
        setup: RawSetup,
        bytes: *mut u8,
        bytes_length: usize,
        board: *mut u8,
        board_length: usize,
        address: u64,
        content: *const u8,
        content_length: usize,
    ) -> RawAnswer;
}

// SAFETY, of all three: each pointer and length are those of a slice, and slices that are borrowed together do not overlap, of which one
// is mutable.

pub(crate) fn check(setup: RawSetup, bytes: &mut [u8], board: &mut [u8]) -> RawAnswer {
    unsafe { card_check(setup, bytes.as_mut_ptr(), bytes.len(), board.as_mut_ptr(), board.len()) }
}

pub(crate) fn read(setup: RawSetup, bytes: &mut [u8], board: &mut [u8], address: u64, buffer: &mut [u8]) -> RawAnswer {
    unsafe {
        card_read(
            setup,
            bytes.as_mut_ptr(),
            bytes.len(),
            board.as_mut_ptr(),
            board.len(),
            address,
            buffer.as_mut_ptr(),
            buffer.len(),
        )
    }
}

pub(crate) fn write(setup: RawSetup, bytes: &mut [u8], board: &mut [u8], address: u64, content: &[u8]) -> RawAnswer {
    unsafe {
        card_write(
            setup,
            bytes.as_mut_ptr(),
            bytes.len(),
            board.as_mut_ptr(),
            board.len(),
            address,
            content.as_ptr(),
            content.len(),
        )
    }
}

impl RawAnswer {
    pub(crate) fn refused(&self) -> Option<Refusal> {
        Some(Refusal {
            reason: Reason::of_number(self.reason)?,
            number: self.number,
        })
    }

    pub(crate) fn faulted(&self) -> Option<Fault> {
        Some(Fault {
            cause: Cause::of_number(self.cause)?,
            depth: self.depth,
            place: self.place,
            done: self.done,
        })
    }

    pub(crate) fn report(&self) -> Report {
        Report {
            lookups: self.lookups,
            fills: self.fills,
            reads: self.reads,
            hits: self.hits,
            prefetches: self.prefetches,
            share: self.share,
        }
    }
}
