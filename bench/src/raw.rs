//! What no window can beat: a strided copy that is told where each page stands, and a plain copy of as many bytes.

use std::hint::black_box;

use crate::library::Registers;
use crate::scene::{LINE, PAGE, PRICE, Scene};

/// How the records of a page lie: one to a stride, with the price at an offset.
fn layout(registers: &Registers) -> (usize, usize) {
    let [_, _, _, stride, offset] = *registers;
    (stride as usize, offset as usize)
}

/// Gathers the prices of the first pages, a line from each.
pub fn gather(scene: &mut Scene, lines: u32) -> bool {
    let (stride, offset) = layout(&scene.opening.registers);
    for &frame in &scene.frames[..lines as usize] {
        let page = &scene.bytes[frame as usize * PAGE..][..PAGE];
        let records = page.chunks_exact(stride);
        for (price, record) in scene.line.chunks_exact_mut(PRICE).zip(records) {
            price.copy_from_slice(&record[offset..offset + PRICE]);
        }
        black_box(&mut scene.line);
    }
    true
}

/// Scatters one line to the prices of each of the first pages.
pub fn scatter(scene: &mut Scene, lines: u32) -> bool {
    let (stride, offset) = layout(&scene.opening.registers);
    for &frame in &scene.frames[..lines as usize] {
        let page = &mut scene.bytes[frame as usize * PAGE..][..PAGE];
        let records = page.chunks_exact_mut(stride);
        for (price, record) in black_box(&scene.line).chunks_exact(PRICE).zip(records) {
            record[offset..offset + PRICE].copy_from_slice(price);
        }
    }
    true
}

/// Copies the first lines of the memory as they stand.
pub fn copy(scene: &mut Scene, lines: u32) -> bool {
    for line in scene.bytes.chunks_exact(LINE).take(lines as usize) {
        scene.line.copy_from_slice(line);
        black_box(&mut scene.line);
    }
    true
}
