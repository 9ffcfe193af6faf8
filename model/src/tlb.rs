//! The TLB of a window: 32 places, page k in place k mod 32, and two counts (windows.md, "The TLB").

use crate::memory::Access;
use crate::page_table::Entry;

const PLACES: u64 = 32;
/// The lookup that reaches this counts whole; after it both counts stand still.
pub const MOST_LOOKUPS: u64 = 1 << 48;

#[derive(Clone, Debug, Default, PartialEq, Eq)]
pub struct Tlb {
    places: [Option<Translation>; PLACES as usize],
    pub lookups: u64,
    pub fills: u64,
}

#[derive(Clone, Copy, Debug, PartialEq, Eq)]
struct Translation {
    page: u64,
    entry: Entry,
}

impl Tlb {
    fn place(&mut self, page: u64) -> &mut Option<Translation> {
        &mut self.places[(page % PLACES) as usize]
    }

    /// The entry that is held for a page.
    pub fn held(&self, page: u64) -> Option<Entry> {
        let held = self.places[(page % PLACES) as usize]?;
        (held.page == page).then_some(held.entry)
    }

    /// Holds an entry from now on, in place of what stood in its place.
    pub fn keep(&mut self, page: u64, entry: Entry) {
        *self.place(page) = Some(Translation { page, entry });
    }

    /// Sets the marks in what is held for the page; another page in its place is left as it is.
    pub fn refresh(&mut self, page: u64, access: Access) {
        if let Some(entry) = self.held(page) {
            self.keep(page, entry.marked(access));
        }
    }

    /// Whether two TLBs hold the same, whatever they have counted.
    pub fn holds_like(&self, other: &Tlb) -> bool {
        self.places == other.places
    }

    pub fn count(&mut self, is_fill: bool) {
        if self.lookups < MOST_LOOKUPS {
            self.lookups += 1;
            self.fills += u64::from(is_fill);
        }
    }
}

#[cfg(test)]
mod tests {
    use super::*;

    #[test]
    fn places_are_shared() {
        let mut tlb = Tlb::default();
        let entry = Entry::decode([0x80, 0, 0, 5]);
        tlb.keep(1, entry);
        tlb.refresh(33, Access::Write);
        assert_eq!(tlb.held(1), Some(entry));
        assert_eq!(tlb.held(33), None);
        tlb.keep(33, entry);
        assert_eq!(tlb.held(1), None);
        tlb.refresh(33, Access::Read);
        assert_eq!(tlb.held(33), Some(Entry::decode([0xC0, 0, 0, 5])));
    }

    #[test]
    fn counts_stand_still() {
        let mut tlb = Tlb {
            lookups: MOST_LOOKUPS - 1,
            fills: 7,
            ..Tlb::default()
        };
        tlb.count(true);
        tlb.count(true);
        assert_eq!((tlb.lookups, tlb.fills), (MOST_LOOKUPS, 8));
    }
}
