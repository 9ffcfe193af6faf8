//! The opening of a window: whether its table is good, and what that asks below (windows.md, "Opening").

use crate::mapping::Mapping;
use crate::memory::{LINE, Memory, PAGE};
use crate::page_table::Table;

/// Why an opening is refused. The discriminant is the number of the reason.
#[derive(Clone, Copy, Debug, PartialEq, Eq)]
pub enum Reason {
    ShortBoard = 21,
    TableOutside = 22,
    FrameOutside = 23,
    FrameInTable = 24,
    FrameTaken = 25,
}

/// A reason, and the number of the entry that decided; 0 where none did.
#[derive(Clone, Copy, Debug, PartialEq, Eq)]
pub struct OpeningRefusal {
    pub reason: Reason,
    pub entry: u64,
}

/// One line of the table has so many entries.
const ENTRIES_OF_A_LINE: u64 = LINE / 4;

/// Goes through the table: the answer by the cells, then the reads that an opening makes below. The board is all zero
/// afterwards, also where it is too short.
pub fn check_opening(
    mapping: &Mapping,
    below: &mut Memory,
    board: &mut [u8],
) -> Result<(), OpeningRefusal> {
    let table = Table::of(mapping);
    let pages = below.size() / PAGE;
    let sizes = check_sizes(&table, pages, board.len() as u64);
    board.fill(0);
    sizes.map_err(|reason| OpeningRefusal { reason, entry: 0 })?;
    let answer = check_entries(&table, below, pages);
    let last = answer.map_or_else(|refusal| refusal.entry, |()| table.entries - 1);
    read_table(&table, below, last);
    answer
}

fn check_sizes(table: &Table, pages: u64, board: u64) -> Result<(), Reason> {
    if board < pages {
        return Err(Reason::ShortBoard);
    }
    if table.page + table.pages() > pages {
        return Err(Reason::TableOutside);
    }
    Ok(())
}

/// The first entry that is refused. An entry that is not live is accepted, and takes no frame.
fn check_entries(table: &Table, below: &Memory, pages: u64) -> Result<(), OpeningRefusal> {
    let mut taken = Vec::new();
    for entry in 0..table.entries {
        let Some(frame) = live_frame(table, below, entry) else {
            continue;
        };
        let reason = if frame >= pages {
            Reason::FrameOutside
        } else if table.has_page(frame) {
            Reason::FrameInTable
        } else if taken.contains(&frame) {
            Reason::FrameTaken
        } else {
            taken.push(frame);
            continue;
        };
        return Err(OpeningRefusal { reason, entry });
    }
    Ok(())
}

/// An entry that cannot be read is not live.
fn live_frame(table: &Table, below: &Memory, k: u64) -> Option<u64> {
    table.entry(below, k).ok()?.live_frame().ok()
}

/// What an opening reads: line after line up to the entry that decides. Where a line is refused, each of its entries up to
/// that one.
fn read_table(table: &Table, below: &mut Memory, last: u64) {
    for line in 0..=last / ENTRIES_OF_A_LINE {
        let first = line * ENTRIES_OF_A_LINE;
        let whole = below.read(table.entry_address(first), &mut [0; LINE as usize]);
        if whole.is_err() {
            for k in first..=last.min(first + ENTRIES_OF_A_LINE - 1) {
                // The answer is not needed: an entry that is refused is not live.
                let _ = below.read(table.entry_address(k), &mut [0; 4]);
            }
        }
    }
}

#[cfg(test)]
mod tests {
    use super::*;
    use crate::bottom::{Bottom, Kind, flip};
    use crate::mapping;

    fn opened(
        kind: Kind,
        table_page: u64,
        board: usize,
        words: [u32; 2],
        fails: bool,
    ) -> (u64, u64) {
        let mapping = mapping::armed(mapping::Kind::Stride, &[256, table_page, 4, 128, 8]).unwrap();
        let mut bottom = Bottom::new(kind, vec![0; 256 * kind.line_bytes() as usize]);
        bottom.store(4096, &words[0].to_be_bytes());
        bottom.store(4100, &words[1].to_be_bytes());
        if fails {
            flip(&mut bottom.bytes, kind.index(4200), 0);
        }
        let mut board = vec![255; board];
        let mut memory = Memory::Bottom(bottom);
        let answer = check_opening(&mapping, &mut memory, &mut board);
        assert!(board.iter().all(|byte| *byte == 0));
        answer.map_or_else(|r| (r.reason as u64, r.entry), |()| (0, 0))
    }

    /// The table of windows.md.
    #[test]
    fn example() {
        let plain = |t, board, words| opened(Kind::Plain, t, board, words, false);
        assert_eq!(plain(1, 8, [0x8000_0005, 0x9000_0006]), (0, 0));
        assert_eq!(plain(1, 7, [0x8000_0005, 0x9000_0006]), (21, 0));
        assert_eq!(plain(8, 8, [0x8000_0005, 0x9000_0006]), (22, 0));
        assert_eq!(plain(1, 8, [0x8000_0008, 0x9000_0006]), (23, 0));
        assert_eq!(plain(1, 8, [0x8000_0001, 0x9000_0006]), (24, 0));
        assert_eq!(plain(1, 8, [0x8000_0005, 0x8000_0005]), (25, 1));
        assert_eq!(plain(1, 8, [0x8000_0005, 0x9000_0005]), (0, 0));
        assert_eq!(plain(1, 8, [0x9000_0005, 0x8000_0005]), (0, 0));
        assert_eq!(plain(1, 8, [0x8000_0001, 0x8000_0008]), (24, 0));
        assert_eq!(plain(1, 7, [0x8000_0008, 0x9000_0006]), (21, 0));
        let words = [0x8000_0001, 0x8000_0008];
        assert_eq!(opened(Kind::Checked, 1, 8, words, true), (0, 0));
        assert_eq!(opened(Kind::Checked, 1, 8, words, false), (24, 0));
    }
}
