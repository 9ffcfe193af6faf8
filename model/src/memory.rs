//! What a memory is (memory.md): a size, that many cells, and two calls that every memory answers alike.
//!
//! The answer and the bytes of a call come from the cells alone, and every cell is worked out by a fresh walk down to
//! the bottom. What is held in a TLB or a cache is kept apart: it decides what is asked of the memory below, and counts.

use crate::bottom::Bottom;
use crate::cache::Cache;
use crate::fault::{Cause, Fault};
use crate::window::Window;

pub const LINE: u64 = 128;
pub const PAGE: u64 = 4096;

/// A byte or a fault.
pub type Cell = Result<u8, Fault>;
/// Acceptance or a fault.
pub type Answer = Result<(), Fault>;

#[derive(Clone, Copy, Debug, PartialEq, Eq)]
pub enum Access {
    Read,
    Write,
}

/// A bottom, or a layer that owns the memory below it.
#[derive(Clone, Debug, PartialEq, Eq)]
pub enum Memory {
    Bottom(Bottom),
    Window(Box<Window>),
    Cache(Box<Cache>),
}

/// The test of a run by a size: causes 1 and 2, in this order. The sums do not wrap.
pub fn check_run(size: u64, address: u64, length: usize) -> Answer {
    let length = length as u128;
    if length == 0 || u128::from(address % LINE) + length > u128::from(LINE) {
        return Err(Fault::here(Cause::BadRun, address));
    }
    if u128::from(address) + length > u128::from(size) {
        return Err(Fault::here(Cause::PastEnd, address));
    }
    Ok(())
}

/// The bytes of a run, or the fault of its first cell that is a fault.
pub fn bytes_of(cells: &[Cell]) -> Result<Vec<u8>, Fault> {
    cells.iter().copied().collect()
}

impl Memory {
    pub fn size(&self) -> u64 {
        match self {
            Memory::Bottom(bottom) => bottom.size(),
            Memory::Window(window) => window.size(),
            Memory::Cache(cache) => cache.below.size(),
        }
    }

    /// The cell at an address below the size. It asks for no call, so nothing changes anywhere.
    pub fn cell(&self, address: u64) -> Cell {
        match self {
            Memory::Bottom(bottom) => bottom.cell(address),
            Memory::Window(window) => window.cell(address),
            Memory::Cache(cache) => cache.below.cell(address).map_err(Fault::passed_up),
        }
    }

    /// The cells of a run that lies below the size.
    pub fn cells(&self, address: u64, length: usize) -> Vec<Cell> {
        (address..).take(length).map(|a| self.cell(a)).collect()
    }

    /// A read: refused calls leave the buffer.
    pub fn read(&mut self, address: u64, buffer: &mut [u8]) -> Answer {
        check_run(self.size(), address, buffer.len())?;
        let bytes = bytes_of(&self.cells(address, buffer.len()));
        let done = match self {
            Memory::Bottom(_) => bytes.as_ref().map(|_| ()).map_err(|fault| *fault),
            Memory::Window(window) => window.ask_read(address, buffer.len()),
            Memory::Cache(cache) => cache.ask_read(address, buffer.len()),
        };
        agrees(done, &bytes);
        buffer.copy_from_slice(&bytes?);
        Ok(())
    }

    /// A write: it is refused as a read is, and a refused one changes no cell.
    pub fn write(&mut self, address: u64, bytes: &[u8]) -> Answer {
        check_run(self.size(), address, bytes.len())?;
        let before = bytes_of(&self.cells(address, bytes.len()));
        let done = match self {
            Memory::Bottom(bottom) => before
                .as_ref()
                .map(|_| bottom.store(address, bytes))
                .map_err(|fault| *fault),
            Memory::Window(window) => window.ask_write(address, bytes),
            Memory::Cache(cache) => cache.ask_write(address, bytes),
        };
        agrees(done, &before);
        before.map(|_| ())
    }

    /// The memory below, of a layer.
    pub fn below(&self) -> Option<&Memory> {
        match self {
            Memory::Bottom(_) => None,
            Memory::Window(window) => Some(&window.below),
            Memory::Cache(cache) => Some(&cache.below),
        }
    }

    /// Closing: a layer gives back the memory that it holds.
    pub fn close(self) -> Option<Memory> {
        match self {
            Memory::Bottom(_) => None,
            Memory::Window(window) => Some(window.below),
            Memory::Cache(cache) => Some(cache.below),
        }
    }

    /// The cell of the bottom in which a cell stands, if there is one. Only the generator asks for it.
    pub fn home(&self, address: u64) -> Option<u64> {
        if address >= self.size() {
            return None;
        }
        match self {
            Memory::Bottom(_) => Some(address),
            Memory::Window(window) => window.below.home(window.walked(address).ok()?),
            Memory::Cache(cache) => cache.below.home(address),
        }
    }

    /// The bottom of the stack.
    pub fn bottom(&self) -> &Bottom {
        match self {
            Memory::Bottom(bottom) => bottom,
            Memory::Window(window) => window.below.bottom(),
            Memory::Cache(cache) => cache.below.bottom(),
        }
    }
}

/// What the cells say and what came of the calls below is one answer. Builds for tests compare them.
fn agrees(done: Answer, bytes: &Result<Vec<u8>, Fault>) {
    debug_assert_eq!(done.err(), bytes.as_ref().err().copied());
}

#[cfg(test)]
mod tests {
    use super::*;
    use crate::bottom::{self, Kind};

    #[test]
    fn sums_of_runs_do_not_wrap() {
        let past = |a| Err(Fault::here(Cause::PastEnd, a));
        assert_eq!(check_run(256, u64::MAX, 1), past(u64::MAX));
        assert_eq!(
            check_run(256, 0u64.wrapping_sub(128), 128),
            past(0u64.wrapping_sub(128))
        );
        assert_eq!(check_run(256, 128, 128), Ok(()));
    }

    /// The worked example of memory.md.
    #[test]
    fn checked_example() {
        let mut memory = Memory::Bottom(Bottom::new(Kind::Checked, vec![0; 300]));
        assert_eq!(memory.size(), 256);
        assert_eq!(memory.write(5, &[0xA5]), Ok(()));
        assert_eq!(memory.bottom().bytes[5], 0xA5);
        assert_eq!(memory.bottom().bytes[128], 0xA5);
        let fault = |cause, place| Err(Fault::here(cause, place));
        assert_eq!(memory.read(120, &mut [0; 8]), Ok(()));
        assert_eq!(memory.read(120, &mut [0; 9]), fault(Cause::BadRun, 120));
        assert_eq!(memory.read(256, &mut []), fault(Cause::BadRun, 256));
        assert_eq!(memory.read(256, &mut [0]), fault(Cause::PastEnd, 256));
        let Memory::Bottom(bottom) = &mut memory else {
            unreachable!()
        };
        bottom::flip(&mut bottom.bytes, 3, 7);
        assert_eq!(memory.read(100, &mut [0]), fault(Cause::FailedCheck, 100));
        assert_eq!(memory.read(128, &mut [0]), Ok(()));
    }

    /// The list of lists.md.
    #[test]
    fn list_example() {
        let mut memory = Memory::Bottom(Bottom::new(Kind::Plain, vec![0; 256]));
        let mut four = [9; 4];
        let mut two = [9; 2];
        assert_eq!(memory.write(10, &[1, 2, 3]), Ok(()));
        assert_eq!(memory.read(9, &mut four), Ok(()));
        assert_eq!(four, [0, 1, 2, 3]);
        assert_eq!(
            memory.write(127, &[7, 7]),
            Err(Fault::here(Cause::BadRun, 127))
        );
        assert_eq!(memory.write(11, &[9]), Ok(()));
        assert_eq!(memory.read(11, &mut two), Ok(()));
        assert_eq!(two, [9, 3]);
        assert_eq!(
            memory.read(256, &mut [0]),
            Err(Fault::here(Cause::PastEnd, 256))
        );
        assert_eq!(memory.bottom().bytes[9..14], [0, 1, 9, 3, 0]);
    }
}
