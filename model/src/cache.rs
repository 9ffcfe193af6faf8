//! Caches: which lines are held, what is counted, and what a call asks of the memory below (caches.md).

use crate::fault::Fault;
use crate::memory::{Answer, LINE, Memory};

const SETS: u64 = 8;
const WAYS: usize = 2;
/// The read that reaches this counts whole; after it the counts stand still.
pub const MOST_READS: u64 = 1 << 48;

#[derive(Clone, Debug, PartialEq, Eq)]
pub struct Cache {
    pub below: Memory,
    /// The lines of each set, the one kept last first.
    sets: [Vec<HeldLine>; SETS as usize],
    counts: Counts,
}

#[derive(Clone, Debug, PartialEq, Eq)]
struct HeldLine {
    number: u64,
    copy: [u8; LINE as usize],
    prefetched: bool,
}

#[derive(Clone, Copy, Debug, Default, PartialEq, Eq)]
struct Counts {
    reads: u64,
    hits: u64,
    prefetches: u64,
}

/// The four numbers of a cache's report.
#[derive(Clone, Copy, Debug, PartialEq, Eq)]
pub struct CacheReport {
    pub reads: u64,
    pub hits: u64,
    pub prefetches: u64,
    pub share: u64,
}

impl Cache {
    /// A cache that holds nothing. It makes no call of the memory.
    pub fn new(below: Memory) -> Cache {
        Cache {
            below,
            sets: Default::default(),
            counts: Counts::default(),
        }
    }

    pub fn report(&self) -> CacheReport {
        let Counts {
            reads,
            hits,
            prefetches,
        } = self.counts;
        CacheReport {
            reads,
            hits,
            prefetches,
            share: (hits * 1000).checked_div(reads).unwrap_or(0),
        }
    }

    /// Whether two caches hold the same, whatever they have counted.
    pub fn holds_like(&self, other: &Cache) -> bool {
        self.sets == other.sets
    }

    /// What a read asks below, once its run has been taken. Every such read counts, whatever comes of it.
    pub fn ask_read(&mut self, address: u64, length: usize) -> Answer {
        let number = address / LINE;
        if let Some(line) = self.held(number) {
            debug_assert_eq!(
                Ok(line.copy.to_vec()),
                crate::memory::bytes_of(&self.below.cells(number * LINE, LINE as usize))
            );
            let first = self.hit(number);
            let kept = first && self.prefetch(number + 1);
            self.counts.count(true, kept);
            return Ok(());
        }
        if self.fetch(number, false) {
            let kept = self.prefetch(number + 1);
            self.counts.count(false, kept);
            return Ok(());
        }
        self.counts.count(false, false);
        self.below
            .read(address, &mut vec![0; length])
            .map_err(Fault::passed_up)
    }

    /// What a write asks below: the same write. An accepted one drops its line.
    pub fn ask_write(&mut self, address: u64, bytes: &[u8]) -> Answer {
        self.below.write(address, bytes).map_err(Fault::passed_up)?;
        self.drop_line(address / LINE);
        Ok(())
    }

    fn set(&mut self, number: u64) -> &mut Vec<HeldLine> {
        &mut self.sets[(number % SETS) as usize]
    }

    fn held(&self, number: u64) -> Option<&HeldLine> {
        let set = &self.sets[(number % SETS) as usize];
        set.iter().find(|line| line.number == number)
    }

    /// Whether this is the first hit of a prefetched line; it is prefetched no longer, and keeps its age.
    fn hit(&mut self, number: u64) -> bool {
        let line = self
            .set(number)
            .iter_mut()
            .find(|line| line.number == number);
        line.is_some_and(|line| std::mem::take(&mut line.prefetched))
    }

    /// Reads a line before it is asked for, unless it is held, and says whether it was kept.
    fn prefetch(&mut self, number: u64) -> bool {
        self.held(number).is_none() && self.fetch(number, true)
    }

    /// Reads a whole line below, and keeps it if that is accepted.
    fn fetch(&mut self, number: u64, prefetched: bool) -> bool {
        let mut copy = [0; LINE as usize];
        if self.below.read(number * LINE, &mut copy).is_err() {
            return false;
        }
        self.keep(HeldLine {
            number,
            copy,
            prefetched,
        });
        true
    }

    /// Of a full set the line that was kept longest ago leaves.
    fn keep(&mut self, line: HeldLine) {
        let set = self.set(line.number);
        set.insert(0, line);
        set.truncate(WAYS);
    }

    fn drop_line(&mut self, number: u64) {
        self.set(number).retain(|line| line.number != number);
    }
}

impl Counts {
    fn count(&mut self, is_hit: bool, prefetch_kept: bool) {
        if self.reads < MOST_READS {
            self.reads += 1;
            self.hits += u64::from(is_hit);
            self.prefetches += u64::from(prefetch_kept);
        }
    }
}

#[cfg(test)]
mod tests {
    use super::*;
    use crate::bottom::{Bottom, Kind};
    use crate::fault::Cause;
    use crate::mapping;
    use crate::window::Window;

    fn cached(length: usize) -> Memory {
        let bottom = Bottom::new(Kind::Plain, vec![0; length]);
        Memory::Cache(Box::new(Cache::new(Memory::Bottom(bottom))))
    }

    fn cache_of(memory: &Memory) -> &Cache {
        let Memory::Cache(cache) = memory else {
            unreachable!()
        };
        cache
    }

    fn numbers(memory: &Memory) -> (u64, u64, u64, u64) {
        let report = cache_of(memory).report();
        (report.reads, report.hits, report.prefetches, report.share)
    }

    /// Reads one byte of a line, and says what is counted then.
    fn read_line(memory: &mut Memory, line: u64) -> (u64, u64, u64, u64) {
        assert_eq!(memory.read(line * LINE + 5, &mut [0]), Ok(()));
        numbers(memory)
    }

    /// What a set holds: the line kept last first, with a sign for each that is prefetched.
    fn held(memory: &Memory, set: usize) -> Vec<(u64, bool)> {
        let lines = cache_of(memory).sets[set].iter();
        lines.map(|line| (line.number, line.prefetched)).collect()
    }

    #[test]
    fn first_example() {
        let mut memory = cached(512);
        assert_eq!(read_line(&mut memory, 0), (1, 0, 1, 0));
        assert_eq!(read_line(&mut memory, 1), (2, 1, 2, 500));
        assert_eq!(read_line(&mut memory, 1), (3, 2, 2, 666));
        assert_eq!(read_line(&mut memory, 3), (4, 2, 2, 500));
        assert_eq!(held(&memory, 1), [(1, false)]);
        assert_eq!(held(&memory, 2), [(2, true)]);
    }

    #[test]
    fn sets_and_ages() {
        let mut memory = cached(16384);
        read_line(&mut memory, 0);
        read_line(&mut memory, 8);
        assert_eq!(read_line(&mut memory, 0), (3, 1, 2, 333));
        assert_eq!(held(&memory, 0), [(8, false), (0, false)]);
        read_line(&mut memory, 16);
        assert_eq!(held(&memory, 0), [(16, false), (8, false)]);
        assert_eq!(held(&memory, 1), [(17, true), (9, true)]);
        assert_eq!(read_line(&mut memory, 0), (5, 1, 4, 200));
        assert_eq!(memory.write(16 * LINE + 5, &[1]), Ok(()));
        assert_eq!(held(&memory, 0), [(0, false)]);
        assert_eq!(read_line(&mut memory, 16), (6, 1, 4, 166));
        assert_eq!(held(&memory, 1), [(1, true), (17, true)]);
        assert_eq!(read_line(&mut memory, 17), (7, 2, 5, 285));
        assert_eq!(read_line(&mut memory, 9), (8, 2, 6, 250));
        assert_eq!(held(&memory, 1), [(9, false), (1, true)]);
        assert_eq!(held(&memory, 2), [(10, true), (18, true)]);
    }

    #[test]
    fn counts_stand_still() {
        let mut counts = Counts {
            reads: MOST_READS - 1,
            hits: 3,
            prefetches: 2,
        };
        counts.count(true, true);
        counts.count(true, true);
        assert_eq!(
            (counts.reads, counts.hits, counts.prefetches),
            (MOST_READS, 4, 3)
        );
    }

    fn table(bottom: &mut Bottom, words: &[u32]) {
        for (k, word) in words.iter().enumerate() {
            bottom.store(4096 + 4 * k as u64, &word.to_be_bytes());
        }
    }

    /// caches.md, "A window over a cache".
    #[test]
    fn a_window_over_a_cache() {
        let mut bottom = Bottom::new(Kind::Plain, vec![0; 32768]);
        table(&mut bottom, &[0x8000_0005, 0x9000_0006]);
        let cache = Memory::Cache(Box::new(Cache::new(Memory::Bottom(bottom))));
        let mapping = mapping::armed(mapping::Kind::Stride, &[256, 1, 4, 128, 8]).unwrap();
        let mut memory = Memory::Window(Box::new(Window::open(mapping, cache, &mut [0; 8])));
        assert_eq!(numbers(memory.below().unwrap()), (1, 0, 1, 0));
        assert_eq!(memory.read(4, &mut [0; 4]), Ok(()));
        assert_eq!(numbers(memory.below().unwrap()), (4, 2, 2, 500));
        assert_eq!(memory.read(0, &mut [0; 128]), Ok(()));
        assert_eq!(numbers(memory.below().unwrap()), (36, 33, 32, 916));
    }

    /// caches.md, "A cache over a window".
    #[test]
    fn a_cache_over_a_window() {
        let mut bottom = Bottom::new(Kind::Plain, vec![0; 32768]);
        table(
            &mut bottom,
            &[0x8000_0002, 0x9000_0003, 0x8000_0004, 0x8000_0005],
        );
        let mapping = mapping::armed(mapping::Kind::Stride, &[256, 1, 4, 256, 8]).unwrap();
        let window = Window::open(mapping, Memory::Bottom(bottom), &mut [0; 8]);
        let window = Memory::Window(Box::new(window));
        let mut memory = Memory::Cache(Box::new(Cache::new(window)));
        let fault = |cause, depth, place| {
            Err(Fault {
                cause,
                depth,
                place,
            })
        };
        let rows = [
            (false, 128, Ok(()), (1, 0, 32, 2), [0x80, 0x90, 0xC0, 0xC0]),
            (false, 132, Ok(()), (2, 1, 32, 2), [0x80, 0x90, 0xC0, 0xC0]),
            (false, 60, Ok(()), (3, 1, 50, 3), [0xC0, 0x90, 0xC0, 0xC0]),
            (
                false,
                64,
                fault(Cause::PageOut, 1, 64),
                (4, 1, 68, 3),
                [0xC0, 0x90, 0xC0, 0xC0],
            ),
            (true, 132, Ok(()), (4, 1, 69, 3), [0xC0, 0x90, 0xE0, 0xC0]),
            (false, 128, Ok(()), (5, 1, 101, 3), [0xC0, 0x90, 0xE0, 0xC0]),
            (
                true,
                64,
                fault(Cause::PageOut, 1, 64),
                (5, 1, 102, 3),
                [0xC0, 0x90, 0xE0, 0xC0],
            ),
            (
                false,
                126,
                fault(Cause::BadRun, 0, 126),
                (5, 1, 102, 3),
                [0xC0, 0x90, 0xE0, 0xC0],
            ),
        ];
        for (is_write, address, answer, counts, tops) in rows {
            let made = match is_write {
                true => memory.write(address, &[1, 2, 3, 4]),
                false => memory.read(address, &mut [0; 4]),
            };
            assert_eq!(made, answer);
            let Some(Memory::Window(window)) = memory.below() else {
                unreachable!()
            };
            let (reads, hits, ..) = numbers(&memory);
            assert_eq!((reads, hits, window.tlb.lookups, window.tlb.fills), counts);
            let entries = (0..4).map(|k| memory.bottom().bytes[4096 + 4 * k]);
            assert_eq!(entries.collect::<Vec<u8>>(), tops);
        }
        assert_eq!(numbers(&memory), (5, 1, 0, 200));
    }
}
