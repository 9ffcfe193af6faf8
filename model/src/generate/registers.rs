//! Registers of a window: good ones for an image of some sort, and the ways to make them wrong.

use super::FAR;
use crate::mapping::Kind;
use crate::memory::{LINE, PAGE};
use crate::random::Random;

/// What the image is to be.
#[derive(Clone, Copy, Debug, PartialEq, Eq)]
pub enum Image {
    /// A few lines.
    Small,
    /// Some pages, so that a table of a window above has room.
    Large,
    /// Data of more than 32 pages, of which some have one place in the TLB.
    Competing,
}

const EXTENT: u64 = 1 << 34;

/// Values that arm, but for the table page, which is left 0. A large image takes about so many pages of data.
pub fn good(random: &mut Random, kind: Kind, image: Image, data_pages: u64) -> Vec<u64> {
    match kind {
        Kind::Direct => vec![direct_size(random, image, data_pages), 0],
        Kind::Colour => colour(random, image, data_pages),
        Kind::Stride => stride(random, image, data_pages),
        Kind::Transpose => transpose(random, image, data_pages),
    }
}

fn direct_size(random: &mut Random, image: Image, data_pages: u64) -> u64 {
    match image {
        Image::Small => LINE * random.range(1, 40),
        Image::Large => PAGE * data_pages + LINE * random.pick(&[0, 0, 1, 31]),
        // Seldom about as many pages as a page of the table has entries.
        Image::Competing if random.percent(12) => {
            PAGE * random.range(1023, 1025) + LINE * random.pick(&[0, 1])
        }
        Image::Competing => PAGE * random.range(33, 70),
    }
}

fn colour(random: &mut Random, image: Image, data_pages: u64) -> Vec<u64> {
    let way_pages: u64 = 1 << random.below(4);
    let colour_pages = way_pages >> random.below(3).min(way_pages.ilog2().into());
    let offset_pages = random.below(way_pages - colour_pages + 1);
    let ways = match image {
        Image::Small => 1,
        Image::Large => data_pages.div_ceil(colour_pages),
        Image::Competing => random.range(33, 66).div_ceil(colour_pages),
    };
    let way = way_pages * PAGE;
    vec![ways * way, 0, way, colour_pages * PAGE, offset_pages * PAGE]
}

fn stride(random: &mut Random, image: Image, data_pages: u64) -> Vec<u64> {
    let (object, stride, size) = match image {
        Image::Small => (
            4 << random.below(6),
            LINE * random.range(1, 40),
            LINE * random.range(1, 8),
        ),
        Image::Large => {
            let pairs = [
                (128, 128),
                (128, 128),
                (64, 128),
                (128, 256),
                (64, 256),
                (32, 128),
            ];
            let (object, stride) = random.pick(&pairs);
            let size = (PAGE * data_pages * object / stride).next_multiple_of(LINE);
            (object, stride, size)
        }
        Image::Competing => (
            4 << random.below(4),
            random.pick(&[4096, 8192, 12288, 32768, 65408, 65408]),
            LINE * random.range(2, 8),
        ),
    };
    vec![size, 0, object, stride, offset(random, object, stride)]
}

/// An object offset at which an object lies in its stride, and inside a line; often at an edge.
fn offset(random: &mut Random, object: u64, stride: u64) -> u64 {
    let line = match random.below(3) {
        0 => 0,
        1 => stride.min(4096) / LINE - 1,
        _ => random.below(stride.min(4096) / LINE),
    };
    let rest = LINE - object;
    line * LINE + random.pick(&[0, rest, rest / 2, random_up_to(rest), 8.min(rest)])
}

fn random_up_to(rest: u64) -> u64 {
    rest * 5 / 7
}

fn transpose(random: &mut Random, image: Image, data_pages: u64) -> Vec<u64> {
    let (element, rows, row_bytes): (u64, u64, u64) = match image {
        Image::Small => {
            let element = 4 << random.below(6);
            let rows = 1 << random.below(6);
            (element, rows, element * random.range(1, 8))
        }
        Image::Large => {
            let rows = 1 << random.below(4);
            (16 << random.below(4), rows, PAGE * data_pages / rows)
        }
        Image::Competing => {
            let element = 4 << random.below(4);
            (element, 2 << random.below(4), element * random.range(8, 40))
        }
    };
    let size = (rows * row_bytes).next_multiple_of(LINE.max(element * rows));
    let least = (size / rows).next_multiple_of(element);
    let row = match image {
        Image::Competing => PAGE * random.pick(&[16, 32, 32, 64]),
        _ => least + element * random.pick(&[0, 0, 1, 8, 33]),
    };
    vec![size, 0, element, row, rows]
}

/// The writes of the values: sometimes in another order, with a value that is written over, or without the zeros.
pub fn writes(random: &mut Random, values: &[u64]) -> Vec<(u64, u64)> {
    let mut writes: Vec<(u64, u64)> = (0..).zip(values.iter().copied()).collect();
    if random.percent(30) {
        writes.retain(|(_, value)| *value != 0);
    }
    if random.percent(30) {
        random.shuffle(&mut writes);
    }
    if random.percent(15) {
        let number = random.below(values.len() as u64);
        writes.insert(0, (number, random.pick(&[0, 1, 128, 4095])));
        let last = (number, values[number as usize]);
        writes.retain(|write| *write != last);
        writes.push(last);
    }
    writes
}

/// Makes values or writes wrong so that the set-up is refused with this number, where the mapping can be.
pub fn spoil_values(random: &mut Random, kind: Kind, values: &mut Vec<u64>, number: u64) {
    match number {
        13 => values[0] = random.pick(&[0, 64, 100, values[0] + 1, values[0] - 1, values[0] + 64]),
        14 => break_condition(random, kind, values),
        15 => go_far(random, kind, values, 1),
        FAR => go_far(random, kind, values, 0),
        _ => {}
    }
}

/// One write more, which is refused with 11 or 12, at any place among the others.
pub fn spoil_writes(random: &mut Random, kind: Kind, writes: &mut Vec<(u64, u64)>, number: u64) {
    let widths = kind.widths();
    let count = widths.len() as u64;
    let write = match number {
        11 => {
            let beyond = random.pick(&[count, count, count + 1, 5, 255, 1 << 32, u64::MAX]);
            (beyond, random.pick(&[0, 1, 128, 1 << 32, u64::MAX]))
        }
        12 => {
            let register = random.below(count);
            let first = 1 << widths[register as usize];
            let wide = random.pick(&[first, first, first + 1, 2 * first, 1 << 63, u64::MAX]);
            (register, wide)
        }
        _ => return,
    };
    let at = random.below(writes.len() as u64 + 1) as usize;
    writes.insert(at, write);
}

fn break_condition(random: &mut Random, kind: Kind, values: &mut Vec<u64>) {
    match kind {
        // It has no condition.
        Kind::Direct => {}
        Kind::Colour => break_colour(random, values),
        Kind::Stride => break_stride(random, values),
        Kind::Transpose => break_transpose(random, values),
    }
}

fn break_colour(random: &mut Random, values: &mut [u64]) {
    let (way, colour) = (values[2], values[3]);
    match random.below(10) {
        0 => values[2] = random.pick(&[0, 2048, 12288, way + 1]),
        1 => values[3] = random.pick(&[0, colour - 1, 12288]),
        // Too small alone.
        2 => values[3] = 2048,
        3 => {
            // No power of two alone.
            values[2] = 3 * way;
            values[0] = 3 * way;
        }
        4 => {
            // Where the colour has room in the way, the offset alone is wrong: a smaller power of two divides it.
            values[2] = 2 * way;
            values[0] = 2 * way;
            values[4] += random.pick(&[128, 2048]);
        }
        5 => values[4] = way - colour + PAGE,
        6 => values[0] += LINE,
        7 => values[0] -= LINE,
        8 => values[3] = 2 * way,
        _ => values[0] = way / 2,
    }
}

fn break_stride(random: &mut Random, values: &mut [u64]) {
    let (object, stride) = (values[2], values[3]);
    match random.below(7) {
        0 => values[2] = random.pick(&[0, 2, 12, 256, 129, 64 + 4]),
        1 => values[3] += random.pick(&[1, 64]),
        2 => values[3] = 0,
        // The object passes the end of its stride, and at the same time that of a line.
        3 => values[4] = (stride - object + 1).min(4095),
        4 => values[4] = LINE - object + 1,
        // It passes the stride alone.
        5 => {
            values[3] = stride.min(3968);
            values[4] = values[3];
        }
        _ => {
            values[3] = LINE;
            values[4] = LINE;
        }
    }
}

fn break_transpose(random: &mut Random, values: &mut Vec<u64>) {
    let (size, element, rows) = (values[0], values[2], values[4]);
    match random.below(10) {
        0 => values[2] = random.pick(&[0, 2, 12, 256]),
        1 => values[4] = random.pick(&[0, 3, rows + 1 + rows % 2]),
        2 => values[3] += random.pick(&[1, element / 2]),
        3 => values[3] = 0,
        // Three rows that would fit, and elements of two lines that would.
        7 => *values = vec![3 * LINE * 4, values[1], element, LINE * 4, 3],
        8 => *values = vec![2 * LINE * rows, values[1], 2 * LINE, 2 * LINE, rows],
        // Elements of twelve bytes that would fit.
        9 => *values = vec![3 * LINE, values[1], 12, 48, 8],
        // The rows meet: I / N is just more than D.
        4 | 5 => values[3] = size / rows - element,
        _ => values[4] = 1 << 31,
    }
}

/// An extent that passes 2^34 by as little as the registers can, or (`over` is 0) just does not.
fn go_far(random: &mut Random, kind: Kind, values: &mut Vec<u64>, over: u64) {
    match kind {
        Kind::Direct | Kind::Colour => {}
        Kind::Stride => {
            let (object, stride, offset) = random.pick(&[
                (128, 4096, 3968),
                (128, 4096, 3968),
                (64, 32768, 100 * LINE % 4096),
                (4, 65408, 124),
            ]);
            // The most objects whose extent does not pass it.
            let most = (EXTENT - offset - object) / stride + 1;
            let in_line = LINE / object;
            let objects = (most + over * in_line) / in_line * in_line;
            *values = vec![objects * object, values[1], object, stride, offset];
        }
        Kind::Transpose => {
            let element: u64 = 4 << random.below(6);
            let rows: u64 = 1 << random.range(3, 12);
            let size = (rows * element).next_multiple_of(LINE);
            let most = (EXTENT - size / rows) / (rows - 1) / element * element;
            *values = vec![size, values[1], element, most + over * element, rows];
        }
    }
}

#[cfg(test)]
mod tests {
    use super::*;
    use crate::mapping::armed;

    const KINDS: [Kind; 4] = [Kind::Direct, Kind::Colour, Kind::Stride, Kind::Transpose];

    #[test]
    fn good_registers_arm_and_bad_ones_do_not() {
        let mut random = Random::new(1, 1);
        for turn in 0..4000 {
            let kind = KINDS[turn % 4];
            let image = [Image::Small, Image::Large, Image::Competing][turn % 3];
            let values = good(&mut random, kind, image, 1 + turn as u64 % 11);
            assert!(armed(kind, &values).is_ok(), "{kind:?} {values:?}");
            for number in [13, 14, 15, FAR] {
                let mut wrong = values.clone();
                spoil_values(&mut random, kind, &mut wrong, number);
                if wrong != values && number != FAR {
                    assert_eq!(armed(kind, &wrong), Err(number), "{kind:?} {wrong:?}");
                } else {
                    assert!(armed(kind, &wrong).is_ok(), "{kind:?} {wrong:?}");
                }
            }
        }
    }
}
