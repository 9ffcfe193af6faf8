//! The two bottoms (memory.md, "Two memories"): plain and checked memory, over borrowed bytes.

use crate::fault::{Cause, Fault};
use crate::memory::{Cell, LINE};

/// The borrowed bytes of a line in checked memory: its 128 cells and the check byte.
pub const CHECKED_LINE: u64 = 129;
/// No memory has more lines than this.
const MOST_LINES: u64 = 1 << 33;

#[derive(Clone, Copy, Debug, PartialEq, Eq)]
pub enum Kind {
    Plain,
    Checked,
}

impl Kind {
    /// How many borrowed bytes one line takes.
    pub fn line_bytes(self) -> u64 {
        match self {
            Kind::Plain => LINE,
            Kind::Checked => CHECKED_LINE,
        }
    }

    /// The index of the borrowed byte in which a cell stands.
    pub fn index(self, address: u64) -> usize {
        (address / LINE * self.line_bytes() + address % LINE) as usize
    }

    /// The size of a memory over so many borrowed bytes.
    pub fn size(self, length: u64) -> u64 {
        LINE * (length / self.line_bytes()).min(MOST_LINES)
    }
}

#[derive(Clone, Debug, PartialEq, Eq)]
pub struct Bottom {
    pub kind: Kind,
    pub bytes: Vec<u8>,
}

impl Bottom {
    pub fn new(kind: Kind, bytes: Vec<u8>) -> Bottom {
        Bottom { kind, bytes }
    }

    pub fn size(&self) -> u64 {
        self.kind.size(self.bytes.len() as u64)
    }

    /// A cell of a checked line that fails its check is a fault, whichever cell of the line it is.
    pub fn cell(&self, address: u64) -> Cell {
        match self.kind {
            Kind::Checked if xor(self.line(address)) != 0 => {
                Err(Fault::here(Cause::FailedCheck, address))
            }
            _ => Ok(self.bytes[self.kind.index(address)]),
        }
    }

    /// All borrowed bytes of the line in which a cell lies, with the check byte if there is one.
    fn line(&self, address: u64) -> &[u8] {
        let start = self.kind.index(address / LINE * LINE);
        &self.bytes[start..start + self.kind.line_bytes() as usize]
    }

    /// What an accepted write does: the cells become the bytes, and a check byte is worked out anew.
    pub fn store(&mut self, address: u64, bytes: &[u8]) {
        let start = self.kind.index(address);
        self.bytes[start..start + bytes.len()].copy_from_slice(bytes);
        if self.kind == Kind::Checked {
            self.seal(address / LINE);
        }
    }

    /// The check byte of a line becomes the exclusive or of its cells.
    pub fn seal(&mut self, line: u64) {
        let start = (line * CHECKED_LINE) as usize;
        let cells = &self.bytes[start..start + LINE as usize];
        self.bytes[start + LINE as usize] = xor(cells);
    }
}

fn xor(bytes: &[u8]) -> u8 {
    bytes.iter().fold(0, |sum, byte| sum ^ byte)
}

/// Turns over a bit of a borrowed byte; an index past the end changes nothing, bit numbers go round after the eighth.
pub fn flip(bytes: &mut [u8], index: usize, bit: u64) {
    if let Some(byte) = bytes.get_mut(index) {
        *byte ^= 1 << (bit % 8);
    }
}

#[cfg(test)]
mod tests {
    use super::*;

    #[test]
    fn sizes() {
        assert_eq!(Kind::Plain.size(127), 0);
        assert_eq!(Kind::Plain.size(300), 256);
        assert_eq!(Kind::Checked.size(128), 0);
        assert_eq!(Kind::Checked.size(300), 256);
        assert_eq!(Kind::Plain.size(u64::MAX), 1 << 40);
        assert_eq!(Kind::Checked.size(u64::MAX), 1 << 40);
    }

    #[test]
    fn a_write_stores_and_seals() {
        let mut bottom = Bottom::new(Kind::Checked, vec![0; 258]);
        bottom.store(130, &[1, 2, 4]);
        assert_eq!(bottom.bytes[131..134], [1, 2, 4]);
        assert_eq!(bottom.bytes[257], 7);
        assert_eq!(bottom.cell(132), Ok(4));
        flip(&mut bottom.bytes, 257, 8);
        assert_eq!(bottom.cell(132), Err(Fault::here(Cause::FailedCheck, 132)));
        assert_eq!(bottom.cell(0), Ok(0));
        flip(&mut bottom.bytes, 258, 0);
    }
}
