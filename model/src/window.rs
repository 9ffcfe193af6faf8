//! Windows: cells by a fresh walk, and what a call asks of the memory below (windows.md).

use crate::fault::{Cause, Fault};
use crate::mapping::Mapping;
use crate::memory::{Access, Answer, Cell, Memory, PAGE};
use crate::opening::{OpeningRefusal, check_opening};
use crate::page_table::{Entry, Table, top_marked};
use crate::tlb::Tlb;

#[derive(Clone, Debug, PartialEq, Eq)]
pub struct Window {
    pub mapping: Mapping,
    pub below: Memory,
    pub opening: Result<(), OpeningRefusal>,
    pub tlb: Tlb,
}

/// Where a part stands: its page of the data, its address below, and which bytes of the run it has.
struct Spot {
    page: u64,
    address: u64,
    start: usize,
    length: usize,
}

/// The five numbers of a window's report.
#[derive(Clone, Copy, Debug, PartialEq, Eq)]
pub struct WindowReport {
    pub type_number: u64,
    pub reason: u64,
    pub entry: u64,
    pub lookups: u64,
    pub fills: u64,
}

impl Window {
    /// Makes a window, open or shut.
    pub fn open(mapping: Mapping, mut below: Memory, board: &mut [u8]) -> Window {
        let opening = check_opening(&mapping, &mut below, board);
        Window {
            mapping,
            below,
            opening,
            tlb: Tlb::default(),
        }
    }

    /// A shut window has no cells.
    pub fn size(&self) -> u64 {
        match self.opening {
            Ok(()) => self.mapping.image_size(),
            Err(_) => 0,
        }
    }

    pub fn report(&self) -> WindowReport {
        let (reason, entry) = match self.opening {
            Ok(()) => (0, 0),
            Err(refusal) => (refusal.reason as u64, refusal.entry),
        };
        WindowReport {
            type_number: self.mapping.kind.type_number(),
            reason,
            entry,
            lookups: self.tlb.lookups,
            fills: self.tlb.fills,
        }
    }

    /// Where a cell stands below, or the fault that is met on the way. The TLB is not asked.
    pub fn walked(&self, s: u64) -> Result<u64, Fault> {
        let v = self.place(s)?;
        let entry = Table::of(&self.mapping).entry(&self.below, v / PAGE)?;
        stands(entry, s, v)
    }

    pub fn cell(&self, s: u64) -> Cell {
        let address = self.walked(s)?;
        self.below.cell(address).map_err(Fault::passed_up)
    }

    fn place(&self, s: u64) -> Result<u64, Fault> {
        self.mapping.place(s).ok_or(Fault::here(Cause::Blank, s))
    }

    /// What a read asks below, once its run has been taken: gathering, and then marks.
    pub fn ask_read(&mut self, address: u64, length: usize) -> Answer {
        let spots = self.gather(address, length)?;
        self.mark_all(&spots, Access::Read);
        Ok(())
    }

    /// What a write asks below: it gathers as a read does, so that its answer is settled before a cell is changed.
    pub fn ask_write(&mut self, address: u64, bytes: &[u8]) -> Answer {
        let spots = self.gather(address, bytes.len())?;
        self.mark_all(&spots, Access::Write);
        for spot in &spots {
            let part = &bytes[spot.start..spot.start + spot.length];
            let answer = self.below.write(spot.address, part);
            debug_assert_eq!(answer, Ok(()));
        }
        Ok(())
    }

    /// Part by part: a lookup, and a read of the part below. The first refusal ends it.
    fn gather(&mut self, address: u64, length: usize) -> Result<Vec<Spot>, Fault> {
        let mut spots = Vec::new();
        for (start, length) in parts(self.mapping.grain(), address, length) {
            let s = address + start as u64;
            let v = self.place(s)?;
            let entry = self.look_up(v / PAGE)?;
            let spot = Spot {
                page: v / PAGE,
                address: stands(entry, s, v)?,
                start,
                length,
            };
            self.below
                .read(spot.address, &mut vec![0; length])
                .map_err(Fault::passed_up)?;
            spots.push(spot);
        }
        Ok(spots)
    }

    /// The entry of a page, held or read from the table. It counts, and is a fill where a live entry was read.
    fn look_up(&mut self, page: u64) -> Result<Entry, Fault> {
        if let Some(entry) = self.tlb.held(page) {
            self.tlb.count(false);
            return Ok(entry);
        }
        let mut bytes = [0; 4];
        let address = Table::of(&self.mapping).entry_address(page);
        let answer = self.below.read(address, &mut bytes);
        let entry = Entry::decode(bytes);
        let is_fill = answer.is_ok() && entry.live_frame().is_ok();
        self.tlb.count(is_fill);
        if is_fill {
            self.tlb.keep(page, entry);
        }
        answer.map(|()| entry).map_err(Fault::passed_up)
    }

    /// The marks of the pages of all parts, in order.
    fn mark_all(&mut self, spots: &[Spot], access: Access) {
        for spot in spots {
            self.mark(spot.page, access);
        }
    }

    /// Where a page is held with its marks set, the table is left alone; otherwise its first byte is read and written.
    fn mark(&mut self, page: u64, access: Access) {
        if self
            .tlb
            .held(page)
            .is_some_and(|entry| entry.is_marked(access))
        {
            return;
        }
        self.tlb.refresh(page, access);
        let address = Table::of(&self.mapping).entry_address(page);
        let mut top = [0];
        let read = self.below.read(address, &mut top);
        let written = self.below.write(address, &[top_marked(top[0], access)]);
        debug_assert_eq!((read, written), (Ok(()), Ok(())));
    }
}

/// Where a byte stands by the entry of its page; the faults of the entry arise in the window itself.
fn stands(entry: Entry, s: u64, v: u64) -> Result<u64, Fault> {
    let frame = entry.live_frame().map_err(|cause| Fault::here(cause, s))?;
    Ok(frame * PAGE + v % PAGE)
}

/// The parts of a run, each by its first byte and its length: a part ends where a grain of the image begins.
fn parts(grain: u64, address: u64, length: usize) -> Vec<(usize, usize)> {
    let mut parts = Vec::new();
    let mut start = 0;
    while start < length {
        let left_in_grain = (grain - (address + start as u64) % grain) as usize;
        let part = left_in_grain.min(length - start);
        parts.push((start, part));
        start += part;
    }
    parts
}

#[cfg(test)]
mod tests {
    use super::*;
    use crate::bottom::{Bottom, Kind, flip};
    use crate::mapping;

    /// The window of windows.md: a stride mapping over 32,768 cells, with these two entries.
    fn window(kind: Kind, words: [u32; 2]) -> Memory {
        over(bottom(kind, words))
    }

    fn bottom(kind: Kind, words: [u32; 2]) -> Bottom {
        let mut bottom = Bottom::new(kind, vec![0; 256 * kind.line_bytes() as usize]);
        bottom.store(4096, &words[0].to_be_bytes());
        bottom.store(4100, &words[1].to_be_bytes());
        bottom
    }

    fn over(bottom: Bottom) -> Memory {
        let mapping = mapping::armed(mapping::Kind::Stride, &[256, 1, 4, 128, 8]).unwrap();
        let mut board = [255; 8];
        let window = Window::open(mapping, Memory::Bottom(bottom), &mut board);
        Memory::Window(Box::new(window))
    }

    fn fault(cause: Cause, depth: u8, place: u64) -> Fault {
        Fault {
            cause,
            depth,
            place,
        }
    }

    fn counts(memory: &Memory) -> (u64, u64, u8) {
        let Memory::Window(window) = memory else {
            unreachable!()
        };
        let report = window.report();
        (report.lookups, report.fills, memory.bottom().bytes[4096])
    }

    #[test]
    fn parts_end_where_grains_begin() {
        assert_eq!(parts(4, 6, 4), [(0, 2), (2, 2)]);
        assert_eq!(parts(4, 0, 128).len(), 32);
        assert_eq!(parts(128, 100, 28), [(0, 28)]);
        assert_eq!(parts(8, 7, 2), [(0, 1), (1, 1)]);
    }

    #[test]
    fn cells_of_the_example() {
        let words = [0x8000_0005, 0x9000_0006];
        let memory = window(Kind::Plain, words);
        assert_eq!(memory.home(6), Some(20618));
        assert_eq!(memory.cell(128), Err(fault(Cause::PageOut, 0, 128)));
        let invalid = window(Kind::Plain, [0x8000_0005, 0x1000_0006]);
        assert_eq!(invalid.cell(128), Err(fault(Cause::NoPage, 0, 128)));
        let mut data_fails = bottom(Kind::Checked, words);
        flip(&mut data_fails.bytes, Kind::Checked.index(20620), 0);
        let data_fails = over(data_fails);
        assert_eq!(data_fails.cell(6), Err(fault(Cause::FailedCheck, 1, 20618)));
        let mut table_fails = bottom(Kind::Checked, words);
        flip(&mut table_fails.bytes, Kind::Checked.index(4200), 0);
        let table_fails = over(table_fails);
        assert_eq!(table_fails.cell(6), Err(fault(Cause::FailedCheck, 1, 4096)));
        assert_eq!(
            table_fails.cell(128),
            Err(fault(Cause::FailedCheck, 1, 4100))
        );
    }

    /// The calls of windows.md, "The TLB".
    #[test]
    fn calls_of_the_example() {
        let mut memory = window(Kind::Plain, [0x8000_0005, 0x9000_0006]);
        assert_eq!(memory.read(4, &mut [0; 4]), Ok(()));
        assert_eq!(counts(&memory), (1, 1, 0xC0));
        assert_eq!(memory.read(0, &mut [0; 128]), Ok(()));
        assert_eq!(counts(&memory), (33, 1, 0xC0));
        assert_eq!(memory.read(6, &mut [0; 4]), Ok(()));
        assert_eq!(counts(&memory), (35, 1, 0xC0));
        assert_eq!(memory.write(12, &[1, 2, 3, 4]), Ok(()));
        assert_eq!(counts(&memory), (36, 1, 0xE0));
        assert_eq!(memory.write(16, &[5, 6, 7, 8]), Ok(()));
        assert_eq!(counts(&memory), (37, 1, 0xE0));
        assert_eq!(memory.bottom().bytes[20872..20876], [1, 2, 3, 4]);
        assert_eq!(memory.bottom().bytes[21000..21004], [5, 6, 7, 8]);
        let mut line = [9; 128];
        assert_eq!(
            memory.read(128, &mut line),
            Err(fault(Cause::PageOut, 0, 128))
        );
        assert_eq!((counts(&memory), line), ((38, 1, 0xE0), [9; 128]));
        assert_eq!(
            memory.write(126, &[0; 4]),
            Err(fault(Cause::BadRun, 0, 126))
        );
        assert_eq!(counts(&memory), (38, 1, 0xE0));
        assert_eq!(memory.bottom().bytes[4100], 0x90);
    }

    /// Pages 0 and 32 have one place.
    #[test]
    fn pages_compete() {
        for (word, last_answer, fills) in [
            (0x8000_0000u32, Ok(()), 3),
            (0x9000_0000, Err(fault(Cause::PageOut, 0, 131_072)), 1),
        ] {
            let mut bottom = Bottom::new(Kind::Plain, vec![0; 32768]);
            bottom.store(4096, &0x8000_0005u32.to_be_bytes());
            bottom.store(4224, &word.to_be_bytes());
            let mapping = mapping::armed(mapping::Kind::Direct, &[135_168, 1]).unwrap();
            let window = Window::open(mapping, Memory::Bottom(bottom), &mut [0; 8]);
            let mut memory = Memory::Window(Box::new(window));
            assert_eq!(memory.read(0, &mut [0]), Ok(()));
            assert_eq!(memory.read(131_072, &mut [0]), last_answer);
            assert_eq!(memory.read(0, &mut [0]), Ok(()));
            assert_eq!(counts(&memory), (3, fills, 0xC0));
        }
    }

    #[test]
    fn a_shut_window_has_no_cells() {
        let mut memory = window(Kind::Plain, [0x8000_0005, 0x8000_0005]);
        assert_eq!(memory.size(), 0);
        assert_eq!(memory.read(0, &mut [0]), Err(fault(Cause::PastEnd, 0, 0)));
        assert_eq!(memory.read(0, &mut []), Err(fault(Cause::BadRun, 0, 0)));
        let Memory::Window(window) = memory else {
            unreachable!()
        };
        let report = window.report();
        assert_eq!(
            (report.type_number, report.reason, report.entry),
            (3, 25, 1)
        );
        assert_eq!((report.lookups, report.fills), (0, 0));
    }

    /// The sample of invoice.md, "A window over a window": 71 lookups and 3 fills below.
    #[test]
    fn a_window_over_a_window() {
        let mut bottom = Bottom::new(Kind::Checked, vec![0; 5 * 32 * 129]);
        for k in 0..2u32 {
            bottom.store(
                3 * 4096 + 4 * u64::from(k),
                &(0x8000_0000 + k).to_be_bytes(),
            );
        }
        for k in 0..4u32 {
            bottom.store(
                4 * 4096 + 4 * u64::from(k),
                &(0x8000_0000 + k).to_be_bytes(),
            );
        }
        let lower = mapping::armed(mapping::Kind::Direct, &[4 * 4096, 4]).unwrap();
        let lower = Window::open(lower, Memory::Bottom(bottom), &mut [0; 5]);
        let upper = mapping::armed(mapping::Kind::Stride, &[256, 3, 4, 128, 8]).unwrap();
        let upper = Window::open(upper, Memory::Window(Box::new(lower)), &mut [0; 4]);
        let mut memory = Memory::Window(Box::new(upper));
        assert_eq!(memory.read(0, &mut [0; 128]), Ok(()));
        assert_eq!(memory.read(128, &mut [0; 128]), Ok(()));
        let tops: Vec<u8> = (0..4)
            .map(|k| memory.bottom().cell(4 * 4096 + 4 * k).unwrap())
            .collect();
        assert_eq!(tops, [0xC0, 0xC0, 0x80, 0xE0]);
        let Memory::Window(upper) = memory else {
            unreachable!()
        };
        assert_eq!((upper.tlb.lookups, upper.tlb.fills), (64, 2));
        let Memory::Window(lower) = upper.below else {
            unreachable!()
        };
        assert_eq!((lower.tlb.lookups, lower.tlb.fills), (71, 3));
    }
}
