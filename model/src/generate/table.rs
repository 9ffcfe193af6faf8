//! One window of a case: its registers, where its table stands, and the entries.

use std::collections::BTreeMap;

use super::FAR;
use super::registers::{self, Image};
use super::whole_pages;
use crate::case::{Change, SetUp};
use crate::mapping::{Kind, Mapping, armed};
use crate::memory::{Memory, PAGE};
use crate::page_table::Table;
use crate::random::Random;

pub struct Plan {
    pub set_up: SetUp,
    pub changes: Vec<Change>,
    /// Cells of the bottom in which entries stand.
    pub entries: Vec<u64>,
}

/// Tables with more entries than this have zeros where no word is chosen.
const FEW: u64 = 40;
const LIVE: u32 = 0x8000_0000;

pub fn plan(
    random: &mut Random,
    kind: Kind,
    below: &Memory,
    is_under_window: bool,
    wrong: &[u64],
) -> Plan {
    let image = match is_under_window {
        true => Image::Large,
        false => random.pick(&[Image::Small, Image::Small, Image::Competing, Image::Large]),
    };
    let data_pages = data_pages(random, below);
    let mut values = registers::good(random, kind, image, data_pages);
    let mapping = armed(kind, &values).expect("these registers arm");
    values[1] = table_page(random, &Table::of(&mapping), below);
    let mapping = armed(kind, &values).expect("these registers arm");
    let table = Table::of(&mapping);
    let mut words = words(random, &mapping, &table, below, image);
    // An extent that is too far, then a condition, then the image: so the lowest number decides.
    let mut wrong = wrong.to_vec();
    wrong.sort_by_key(|number| (*number != FAR, std::cmp::Reverse(*number)));
    wrong.dedup();
    for number in &wrong {
        spoil_words(random, &table, whole_pages(below), &mut words, *number);
        registers::spoil_values(random, kind, &mut values, *number);
        if *number == 22 {
            values[1] = outside(random, &table, whole_pages(below));
        }
    }
    let mut writes = registers::writes(random, &values);
    for number in &wrong {
        registers::spoil_writes(random, kind, &mut writes, *number);
    }
    let (changes, entries) = changes(&table, below, &words);
    let board = board(random, whole_pages(below), wrong.contains(&21));
    Plan {
        set_up: SetUp { board, writes },
        changes,
        entries,
    }
}

/// How many pages of data there is room for: the pages that stand whole at the bottom, without one for the table.
fn data_pages(random: &mut Random, below: &Memory) -> u64 {
    let whole = (0..whole_pages(below)).filter(|page| missing(below, *page) == 0);
    let room = (whole.count() as u64).saturating_sub(1);
    match random.percent(70) {
        true => room.clamp(2, 12),
        false => room.clamp(2, 12) + random.below(4),
    }
}

/// How much of a page stands nowhere, in eighths.
fn missing(below: &Memory, page: u64) -> usize {
    let places = (page * PAGE..(page + 1) * PAGE).step_by(512);
    places.filter(|a| below.home(*a).is_none()).count()
}

/// A page from which on the table lies in whole pages, mostly one where its entries can be read.
fn table_page(random: &mut Random, table: &Table, below: &Memory) -> u64 {
    let Some(last) = whole_pages(below).checked_sub(table.pages()) else {
        return 0;
    };
    let mut candidates: Vec<u64> = (0..=last).collect();
    random.shuffle(&mut candidates);
    candidates.truncate(24);
    candidates.push(last);
    if random.percent(8) {
        return random.pick(&candidates);
    }
    let readable = |page: &u64| {
        let step = (4 * table.entries / 16).max(4) as usize;
        let places = (page * PAGE..page * PAGE + 4 * table.entries).step_by(step);
        places.filter(|a| below.home(*a).is_some()).count()
    };
    candidates.iter().copied().max_by_key(readable).unwrap_or(0)
}

/// A table page at which the table is outside.
fn outside(random: &mut Random, table: &Table, pages: u64) -> u64 {
    let first = (pages + 1).saturating_sub(table.pages());
    random.pick(&[first, first, pages, pages + 1, (1 << 28) - 1])
}

fn board(random: &mut Random, pages: u64, is_short: bool) -> usize {
    let length = match is_short {
        true => random.pick(&[pages.saturating_sub(1), pages / 2, 0]),
        false => pages + random.pick(&[0, 0, 0, 1, 7]),
    };
    length as usize
}

/// The words of the entries, by entry number.
fn words(
    random: &mut Random,
    mapping: &Mapping,
    table: &Table,
    below: &Memory,
    image: Image,
) -> BTreeMap<u64, u32> {
    let mut words = BTreeMap::new();
    if table.entries <= FEW {
        for k in 0..table.entries {
            words.insert(k, dead_word(random, whole_pages(below)));
        }
    }
    let frames = frames(random, table, below);
    let used = used_pages(random, mapping, image);
    let live = match used.len().min(frames.len()) {
        few @ 0..3 => few,
        many => many - random.pick(&[0, 0, 0, 1, 2]),
    };
    for (k, frame) in used.into_iter().take(live).zip(frames) {
        let word = match random.percent(94) {
            true => LIVE | marks(random) | frame as u32,
            false => dead_word(random, whole_pages(below)),
        };
        words.insert(k, word);
    }
    words
}

fn marks(random: &mut Random) -> u32 {
    random.pick(&[0, 0, 0, 0x4000_0000, 0x2000_0000, 0x6000_0000])
}

/// An entry that is not live: not valid, or out; its frame is anything.
fn dead_word(random: &mut Random, pages: u64) -> u32 {
    let frame = match random.below(3) {
        0 => 0x0FFF_FFFF,
        _ => random.below(pages + 2) as u32,
    };
    random.pick(&[0, 0x1000_0000, 0x9000_0000, 0x9000_0000]) | marks(random) | frame
}

/// The pages that a live entry may have, in random order; mostly those first whose bytes stand at the bottom.
fn frames(random: &mut Random, table: &Table, below: &Memory) -> Vec<u64> {
    let mut frames: Vec<u64> = (0..whole_pages(below))
        .filter(|page| !table.has_page(*page))
        .collect();
    random.shuffle(&mut frames);
    if random.percent(90) {
        frames.sort_by_key(|page| missing(below, *page));
    }
    frames
}

/// Pages of the data in which bytes of the image stand, in the order of the image from some page of it on. Where pages
/// are to compete, those come first that share their place with another.
fn used_pages(random: &mut Random, mapping: &Mapping, image: Image) -> Vec<u64> {
    let size = mapping.image_size();
    let start = match random.percent(70) {
        true => 0,
        false => random.below(size / PAGE + 1) * PAGE,
    };
    let mut pages = Vec::new();
    for s in (0..size).step_by(mapping.grain() as usize).take(20_000) {
        let Some(v) = mapping.place((start + s) % size) else {
            continue;
        };
        // Neighbours share their page, so that looking at the last ones is enough to keep the list short.
        if !pages.contains(&(v / PAGE)) {
            pages.push(v / PAGE);
        }
        if pages.len() == 200 {
            break;
        }
    }
    // In the order of the image neighbours compete already, where an object or a row takes many pages.
    let is_dense = mapping.grain() == 128;
    if image == Image::Competing && random.percent(if is_dense { 75 } else { 30 }) {
        let place = random.pick(&pages) % 32;
        let is_near = |page: &u64| (*page + 32 - place) % 32 >= 2;
        pages.sort_by_key(is_near);
    }
    pages
}

/// Makes an entry wrong, so that the opening is refused with this number.
fn spoil_words(
    random: &mut Random,
    table: &Table,
    pages: u64,
    words: &mut BTreeMap<u64, u32>,
    number: u64,
) {
    let live: Vec<u64> = words
        .iter()
        .filter(|(_, word)| **word >> 28 & 9 == 8)
        .map(|(k, _)| *k)
        .collect();
    let any = match live.is_empty() {
        true => 0,
        false => {
            let middle = random.pick(&live);
            random.pick(&[middle, live[0], live[live.len() - 1]])
        }
    };
    let last_page = table.page + table.pages() - 1;
    let word = match number {
        23 => random.pick(&[pages, pages, pages + 1, 0x0FFF_FFFF]),
        24 => random.pick(&[table.page, last_page]),
        25 if live.len() > 1 => u64::from(words[&live[0]] & 0x0FFF_FFFF),
        _ => return,
    };
    let entry = match number {
        25 => random.pick(&live[1..]),
        _ => any,
    };
    words.insert(entry, LIVE | marks(random) | word as u32);
}

/// The table as changes of the bottom's cells, and in which cells entries stand. A byte of the table that stands nowhere
/// is left out.
fn changes(table: &Table, below: &Memory, words: &BTreeMap<u64, u32>) -> (Vec<Change>, Vec<u64>) {
    let pages_fit = table.page + table.pages() <= whole_pages(below);
    if !pages_fit {
        return (Vec::new(), Vec::new());
    }
    let mut changes = Vec::new();
    if table.entries > FEW {
        let zeros = (0..4 * table.entries).filter_map(|i| below.home(table.page * PAGE + i));
        let zeros: BTreeMap<u64, u8> = zeros.map(|cell| (cell, 0)).collect();
        let cleared = pieces(&zeros, usize::MAX);
        changes.extend(cleared.into_iter().map(|(a, b)| Change::Clear(a, b.len())));
    }
    let mut bytes = BTreeMap::new();
    let mut entries = Vec::new();
    for (k, word) in words {
        for (i, byte) in (0..).zip(word.to_be_bytes()) {
            if let Some(cell) = below.home(table.entry_address(*k) + i) {
                bytes.insert(cell, byte);
                entries.push(cell);
            }
        }
    }
    let written = pieces(&bytes, 128);
    changes.extend(written.into_iter().map(|(a, b)| Change::Cells(a, b)));
    (changes, entries)
}

/// Bytes by their addresses, as pieces that follow one another, none longer than `most`.
fn pieces(bytes: &BTreeMap<u64, u8>, most: usize) -> Vec<(u64, Vec<u8>)> {
    let mut pieces: Vec<(u64, Vec<u8>)> = Vec::new();
    for (address, byte) in bytes {
        match pieces.last_mut() {
            Some((first, piece))
                if *first + piece.len() as u64 == *address && piece.len() < most =>
            {
                piece.push(*byte)
            }
            _ => pieces.push((*address, vec![*byte])),
        }
    }
    pieces
}
