//! Measures what a call costs, by the size of the page table: the opening alone, one line, and the whole column.

use std::hint::black_box;
use std::time::{Duration, Instant};
use tingerbil::{Cache, Card, Format, Mapping, PAGE, Setup};

const RECORD: usize = 128;
const PRICE: usize = 4;

/// Bytes of so many records, each page of them in the page of its own number, with the page table behind them.
fn bytes_of(records: usize) -> (Vec<u8>, Setup) {
    let pages = records * RECORD / PAGE;
    let table_pages = pages.div_ceil(PAGE / 4);
    let mut bytes = vec![1; (pages + table_pages) * PAGE];
    let (_, table) = bytes.split_at_mut(pages * PAGE);
    for (number, entry) in table.as_chunks_mut::<4>().0.iter_mut().enumerate() {
        *entry = if number < pages { (0x8000_0000 | number as u32).to_be_bytes() } else { [0; 4] };
    }
    let mapping = Mapping::Stride {
        image_size: (records * PRICE) as u64,
        table_page: pages as u64,
        object_size: PRICE as u64,
        stride: RECORD as u64,
        object_offset: 8,
    };
    let setup = Setup {
        mapping,
        format: Format::Plain,
        cache: Cache::Absent,
    };
    (bytes, setup)
}

/// The median time of so many calls.
fn median(calls: usize, mut call: impl FnMut()) -> Duration {
    let mut times: Vec<Duration> = (0..calls)
        .map(|_| {
            let start = Instant::now();
            call();
            start.elapsed()
        })
        .collect();
    times.sort();
    times[calls / 2]
}

fn main() -> Result<(), Box<dyn std::error::Error>> {
    println!("| Records | Entries | Opening | One line | Whole column | Lines | Each line of it |");
    println!("|---|---|---|---|---|---|---|");
    for records in [1_024, 4_096, 32_768, 262_144, 2_097_152] {
        let (mut bytes, setup) = bytes_of(records);
        let calls = (1 << 22) / records + 5;
        let opening = median(calls, || {
            black_box(Card::open(setup, black_box(&mut bytes)).is_ok());
        });
        let mut card = Card::open(setup, &mut bytes)?;
        let line = median(calls, || {
            black_box(card.line(0).is_ok());
        });
        let mut column = vec![0; records * PRICE];
        let whole = median(calls, || {
            black_box(card.read(0, black_box(&mut column)).is_ok());
        });
        let lines = records / 32;
        let each = whole.saturating_sub(opening) / lines as u32;
        let (entries, each) = (records * RECORD / PAGE, each.as_nanos());
        println!("| {records} | {entries} | {opening:.1?} | {line:.1?} | {whole:.1?} | {lines} | {each} ns |");
    }
    Ok(())
}
