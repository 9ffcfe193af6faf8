//! Memories of records of 128 bytes, each with a price of 4 bytes at offset 8, and the page tables of windows over them.

use std::hint::black_box;

use crate::library::{Line, Opening, Registers};

pub const PAGE: usize = 4096;
pub const LINE: usize = 128;
pub const RECORD: usize = 128;
pub const PRICE: usize = 4;
pub const OFFSET: usize = 8;

/// Records in a page, which are the 32 prices of a dense line too.
pub const PAGE_RECORDS: usize = 32;

/// How the frames of a page table follow one another.
#[derive(Clone, Copy, PartialEq, Eq)]
pub enum Order {
    InOrder,
    Shuffled,
}

impl Order {
    pub const ALL: [Order; 2] = [Order::InOrder, Order::Shuffled];

    pub fn name(self) -> &'static str {
        match self {
            Order::InOrder => "in order",
            Order::Shuffled => "shuffled",
        }
    }
}

/// A memory, what opens a window over it, and the buffer of one line.
pub struct Scene {
    pub bytes: Vec<u8>,
    /// of the window that is asked
    pub opening: Opening,
    /// of the window below it, if there is one
    pub lower: Option<Opening>,
    /// where each page of the records stands
    pub frames: Vec<u32>,
    pub line: Line,
}

impl Scene {
    /// Plain memory with so many records, and after them the table of a stride window.
    pub fn stride(records: usize, order: Order) -> Scene {
        let pages = records / PAGE_RECORDS;
        let frames = order_of(pages, order);
        let mut bytes = vec![0; (pages + table_pages(pages)) * PAGE];
        put_records(&mut bytes, &frames, records);
        put_table(&mut bytes, pages, &frames);
        let image = records * PRICE;
        Scene::over(bytes, frames, [image, pages, PRICE, RECORD, OFFSET])
    }

    /// The same memory and table, by the registers of another mapping.
    pub fn other(records: usize, order: Order, image: usize, others: [usize; 3]) -> Scene {
        let mut scene = Scene::stride(records, order);
        let [second, third, fourth] = others;
        scene.opening.registers = registers([image, records / PAGE_RECORDS, second, third, fourth]);
        scene
    }

    /// The same cells in checked memory: after each line the exclusive or of its bytes.
    pub fn checked(records: usize, order: Order) -> Scene {
        let mut scene = Scene::stride(records, order);
        scene.bytes = scene
            .bytes
            .chunks_exact(LINE)
            .flat_map(|line| line.iter().copied().chain([line.iter().fold(0, |all, byte| all ^ byte)]))
            .collect();
        scene
    }

    /// A direct window whose image has the records and the table of a stride window over it.
    pub fn two_windows(records: usize, order: Order) -> Scene {
        let upper = Scene::stride(records, Order::InOrder);
        let pages = upper.bytes.len() / PAGE;
        let frames = order_of(pages, order);
        let mut bytes = vec![0; (pages + table_pages(pages)) * PAGE];
        for (page, &frame) in upper.bytes.chunks_exact(PAGE).zip(&frames) {
            bytes[frame as usize * PAGE..][..PAGE].copy_from_slice(page);
        }
        put_table(&mut bytes, pages, &frames);
        let lower = Scene::over(bytes, frames, [pages * PAGE, pages, 0, 0, 0]);
        Scene { opening: upper.opening, lower: Some(lower.opening), ..lower }
    }

    fn over(bytes: Vec<u8>, frames: Vec<u32>, values: [usize; 5]) -> Scene {
        let board = vec![0; bytes.len() / PAGE];
        Scene { bytes, opening: Opening { board, registers: registers(values) }, lower: None, frames, line: [0; LINE] }
    }
}

/// The values of registers, of which the compiler knows nothing.
fn registers(values: [usize; 5]) -> Registers {
    black_box(values.map(|value| value as u64))
}

fn table_pages(entries: usize) -> usize {
    (entries * 4).div_ceil(PAGE)
}

/// The price of a record.
pub fn price(record: usize) -> [u8; PRICE] {
    (record as u32).wrapping_mul(2_654_435_761).to_be_bytes()
}

/// The dense line of this number.
pub fn prices(number: usize) -> Line {
    let mut line = [0; LINE];
    for (at, place) in line.chunks_exact_mut(PRICE).enumerate() {
        place.copy_from_slice(&price(number * PAGE_RECORDS + at));
    }
    line
}

fn put_records(bytes: &mut [u8], frames: &[u32], records: usize) {
    for record in 0..records {
        let start = frames[record / PAGE_RECORDS] as usize * PAGE + record % PAGE_RECORDS * RECORD;
        bytes[start + OFFSET..][..PRICE].copy_from_slice(&price(record));
    }
}

/// Valid entries, most significant byte first, from this page on.
fn put_table(bytes: &mut [u8], page: usize, frames: &[u32]) {
    for (entry, &frame) in bytes[page * PAGE..].chunks_exact_mut(4).zip(frames) {
        entry.copy_from_slice(&(0x8000_0000 | frame).to_be_bytes());
    }
}

fn order_of(pages: usize, order: Order) -> Vec<u32> {
    let mut frames: Vec<u32> = (0..pages as u32).collect();
    if order == Order::Shuffled {
        let mut random = Random(88_172_645_463_325_252);
        for last in (1..pages).rev() {
            frames.swap(last, random.below(last + 1));
        }
    }
    frames
}

/// Marsaglia's xorshift, so that every run shuffles alike.
struct Random(u64);

impl Random {
    fn below(&mut self, bound: usize) -> usize {
        self.0 ^= self.0 << 13;
        self.0 ^= self.0 >> 7;
        self.0 ^= self.0 << 17;
        (self.0 % bound as u64) as usize
    }
}
