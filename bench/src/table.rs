//! The tables, in Markdown.

use crate::experiments::{
    COPY, GATHER, Layers, Openings, PLAIN, READ, SCATTER, SIMPLE_READ, SIMPLE_WRITE, Size, WRITE,
};

pub fn sizes(sizes: &[Size]) {
    println!("Nanoseconds for a line that is read:\n");
    println!("| Records | Table | Window | Simple window | Strided copy | memcpy | to simple | to strided |");
    println!("|---|---|---|---|---|---|---|---|");
    for size in sizes {
        size_row(size, READ, SIMPLE_READ, GATHER);
    }
    println!("\nNanoseconds for a line that is written:\n");
    println!("| Records | Table | Window | Simple window | Strided copy | memcpy | to simple | to strided |");
    println!("|---|---|---|---|---|---|---|---|");
    for size in sizes {
        size_row(size, WRITE, SIMPLE_WRITE, SCATTER);
    }
    println!();
}

fn size_row(size: &Size, window: usize, simple: usize, strided: usize) {
    let Size { records, order, figures } = size;
    println!(
        "| {} | {} | {:.1} | {:.1} | {:.1} | {:.1} | {:.2} | {:.2} |",
        grouped(*records),
        order.name(),
        figures.median(window),
        figures.median(simple),
        figures.median(strided),
        figures.median(COPY),
        figures.ratio(window, simple),
        figures.ratio(window, strided),
    );
}

pub fn layers(layers: &Layers) {
    println!("Nanoseconds for a line that is read, 4,096 records, shuffled:\n");
    println!("| Stack | Line | to the first |");
    println!("|---|---|---|");
    for (place, name) in layers.names.iter().enumerate() {
        let figures = &layers.figures;
        println!("| {name} | {:.1} | {:.2} |", figures.median(place), figures.ratio(place, PLAIN));
    }
    println!();
}

pub fn openings(openings: &Openings) {
    println!("Opening a stride window over plain memory:\n");
    println!("| Entries | Microseconds | Nanoseconds for an entry |");
    println!("|---|---|---|");
    for (place, &entries) in openings.entries.iter().enumerate() {
        let time = openings.figures.median(place);
        println!("| {} | {:.1} | {:.2} |", grouped(entries), time / 1000.0, time / entries as f64);
    }
    println!();
}

/// A number with a comma after each three digits.
pub fn grouped(number: usize) -> String {
    let digits = number.to_string();
    let mut text = String::new();
    for (at, digit) in digits.chars().enumerate() {
        if at > 0 && (digits.len() - at).is_multiple_of(3) {
            text.push(',');
        }
        text.push(digit);
    }
    text
}
