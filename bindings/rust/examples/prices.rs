//! Lays down 96 records, adds up their prices through a window, corrects a price, and shows what refusals look like.

use tingerbil::{Cache, Card, Error, Format, LINE, Mapping, PAGE, Refusal, Setup};

const RECORDS: usize = 96;
const RECORDS_IN_PAGE: usize = PAGE / 128;
const PRICE_AT: usize = 8;
const PRICE: usize = 4;
const PAGES: usize = 8;
const TABLE_PAGE: usize = 3;
const COLUMN: usize = RECORDS * PRICE;

/// The pages in which the three pages of records stand.
const FRAMES: [u32; 3] = [5, 2, 7];

fn setup(cache: Cache) -> Setup {
    Setup {
        mapping: Mapping::Stride {
            image_size: COLUMN as u64,
            table_page: TABLE_PAGE as u64,
            object_size: PRICE as u64,
            stride: 128,
            object_offset: PRICE_AT as u64,
        },
        format: Format::Plain,
        cache,
    }
}

fn put_word(bytes: &mut [u8], at: usize, word: u32) {
    bytes[at..at + 4].copy_from_slice(&word.to_be_bytes());
}

fn put_entry(bytes: &mut [u8], number: usize, frame: u32) {
    put_word(bytes, TABLE_PAGE * PAGE + 4 * number, 0x8000_0000 | frame);
}

fn lay_down(bytes: &mut [u8]) {
    for (number, frame) in FRAMES.iter().enumerate() {
        put_entry(bytes, number, *frame);
    }
    for i in 0..RECORDS {
        let frame = FRAMES[i / RECORDS_IN_PAGE] as usize;
        put_word(bytes, frame * PAGE + i % RECORDS_IN_PAGE * 128 + PRICE_AT, 199 + 50 * i as u32);
    }
}

fn show_refusal(what: &str, refusal: Refusal) {
    println!("{what}: reason {} number {}, cause 0 depth 0 place 0, done 0", refusal.reason.number(), refusal.number);
}

fn show<T>(what: &str, answer: Result<T, Error>, all: usize) {
    match answer {
        Ok(_) => println!("{what}: reason 0 number 0, cause 0 depth 0 place 0, done {all}"),
        Err(Error::Refused(refusal)) => show_refusal(what, refusal),
        Err(Error::Faulted(fault)) => {
            let cause = fault.cause.number();
            println!("{what}: reason 0 number 0, cause {cause} depth {} place {}, done {}", fault.depth, fault.place, fault.done);
        }
    }
}

fn add_up(card: &mut Card) -> Result<(), Error> {
    let mut column = [0; COLUMN];
    let report = card.read(0, &mut column)?;
    let prices = column.as_chunks::<PRICE>().0;
    let total: u64 = prices.iter().map(|price| u64::from(u32::from_be_bytes(*price))).sum();
    println!(
        "total: {total} cents, lookups {}, fills {}, line reads {}, hits {}",
        report.lookups, report.fills, report.reads, report.hits
    );
    Ok(())
}

fn main() -> Result<(), Box<dyn std::error::Error>> {
    let mut bytes = vec![0; PAGES * PAGE];
    lay_down(&mut bytes);
    let mut card = Card::open(setup(Cache::Absent), &mut bytes)?;
    show("check", Ok(()), 0);
    add_up(&mut card)?;
    show("correct", card.write(40 * PRICE as u64, &1999u32.to_be_bytes()), PRICE);
    add_up(&mut card)?;
    let mut cached = Card::open(setup(Cache::Over), card.close())?;
    add_up(&mut cached)?;

    let mut card = Card::open(setup(Cache::Absent), cached.close())?;
    show("past the end", card.read((COLUMN - LINE) as u64, &mut [0; 2 * LINE]), 2 * LINE);
    show("nothing asked", card.read(0, &mut []), 0);
    put_entry(card.close(), 2, FRAMES[0]);
    match Card::open(setup(Cache::Absent), &mut bytes) {
        Ok(_) => println!("one frame twice: opened"),
        Err(refusal) => show_refusal("one frame twice", refusal),
    }
    Ok(())
}
