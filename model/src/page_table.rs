//! The page table of a mapping, as it lies in the memory below (windows.md, "The page table").

use crate::fault::{Cause, Fault};
use crate::mapping::Mapping;
use crate::memory::{Access, Memory, PAGE};

/// A page has room for so many entries of four bytes.
const ENTRIES_OF_A_PAGE: u64 = 1024;
/// Where the marks stand in the first byte of an entry.
const REFERENCED: u8 = 0x40;
const MODIFIED: u8 = 0x20;

/// A page table entry.
#[derive(Clone, Copy, Debug, PartialEq, Eq)]
pub struct Entry {
    pub valid: bool,
    pub referenced: bool,
    pub modified: bool,
    pub out: bool,
    pub frame: u64,
}

impl Entry {
    /// What four bytes say, most significant first.
    pub fn decode(bytes: [u8; 4]) -> Entry {
        let word = u32::from_be_bytes(bytes);
        Entry {
            valid: word >> 31 & 1 == 1,
            referenced: word >> 30 & 1 == 1,
            modified: word >> 29 & 1 == 1,
            out: word >> 28 & 1 == 1,
            frame: u64::from(word & 0x0FFF_FFFF),
        }
    }

    /// The frame of a live entry, or why it is not live. An entry that is not valid says nothing of its page.
    pub fn live_frame(&self) -> Result<u64, Cause> {
        if !self.valid {
            return Err(Cause::NoPage);
        }
        if self.out {
            return Err(Cause::PageOut);
        }
        Ok(self.frame)
    }

    /// Whether the marks that an access sets are set already.
    pub fn is_marked(&self, access: Access) -> bool {
        match access {
            Access::Read => self.referenced,
            Access::Write => self.referenced && self.modified,
        }
    }

    /// The entry with the marks of an access set.
    pub fn marked(self, access: Access) -> Entry {
        Entry {
            referenced: true,
            modified: self.modified || access == Access::Write,
            ..self
        }
    }
}

/// The first byte of an entry with the marks of an access set.
pub fn top_marked(top: u8, access: Access) -> u8 {
    match access {
        Access::Read => top | REFERENCED,
        Access::Write => top | REFERENCED | MODIFIED,
    }
}

/// Where the table of a mapping lies.
#[derive(Clone, Copy, Debug, PartialEq, Eq)]
pub struct Table {
    pub page: u64,
    pub entries: u64,
}

impl Table {
    pub fn of(mapping: &Mapping) -> Table {
        Table {
            page: mapping.table_page(),
            entries: mapping.extent().div_ceil(PAGE),
        }
    }

    /// How many pages a byte of the table lies in.
    pub fn pages(&self) -> u64 {
        self.entries.div_ceil(ENTRIES_OF_A_PAGE)
    }

    /// Whether a page of the memory below is a page of the table.
    pub fn has_page(&self, page: u64) -> bool {
        self.page <= page && page < self.page + self.pages()
    }

    pub fn entry_address(&self, k: u64) -> u64 {
        self.page * PAGE + 4 * k
    }

    /// Entry k as the cells below say it, or the first fault among its four cells, passed up.
    pub fn entry(&self, below: &Memory, k: u64) -> Result<Entry, Fault> {
        let mut bytes = [0; 4];
        for (byte, address) in bytes.iter_mut().zip(self.entry_address(k)..) {
            *byte = below.cell(address).map_err(Fault::passed_up)?;
        }
        Ok(Entry::decode(bytes))
    }
}

#[cfg(test)]
mod tests {
    use super::*;
    use crate::mapping::{Kind, armed};

    #[test]
    fn entries_of_the_page() {
        let frame = |bytes| Entry::decode(bytes).live_frame();
        assert_eq!(frame([0x80, 0, 0, 5]), Ok(5));
        assert_eq!(frame([0xE0, 0, 0, 5]), Ok(5));
        assert_eq!(frame([0x90, 0, 0, 5]), Err(Cause::PageOut));
        assert_eq!(frame([0x10, 0, 0, 5]), Err(Cause::NoPage));
        assert_eq!(frame([0x8F, 0xFF, 0xFF, 0xFF]), Ok((1 << 28) - 1));
    }

    #[test]
    fn marks_of_the_page() {
        let tops = [
            (0x80, 0xC0, 0xE0),
            (0xC0, 0xC0, 0xE0),
            (0xA0, 0xE0, 0xE0),
            (0xE0, 0xE0, 0xE0),
        ];
        for (before, read, write) in tops {
            for (access, after) in [(Access::Read, read), (Access::Write, write)] {
                assert_eq!(top_marked(before, access), after);
                let entry = Entry::decode([before, 0, 0, 5]).marked(access);
                assert_eq!(entry, Entry::decode([after, 0, 0, 5]));
                assert_eq!(
                    Entry::decode([before, 0, 0, 5]).is_marked(access),
                    before == after
                );
            }
        }
    }

    #[test]
    fn where_a_table_lies() {
        let table = Table::of(&armed(Kind::Stride, &[256, 1, 4, 128, 8]).unwrap());
        assert_eq!((table.entries, table.pages()), (2, 1));
        assert_eq!(table.entry_address(1), 4100);
        assert!(table.has_page(1) && !table.has_page(2) && !table.has_page(0));
        let long = Table::of(&armed(Kind::Direct, &[1025 * 4096, 3]).unwrap());
        assert_eq!((long.entries, long.pages()), (1025, 2));
        assert!(long.has_page(4) && !long.has_page(5));
    }
}
