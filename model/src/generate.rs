//! The generator of random cases, biased to the edges of every rule.

mod calls;
mod registers;
mod table;
mod twins;

use crate::bottom::Kind;
use crate::case::{Case, Change, LayerKind, SetUp};
use crate::memory::{LINE, Memory, PAGE};
use crate::play::build;
use crate::random::Random;

pub use twins::{TWIN, differs, twin};

/// The most layers of a stack.
const HIGHEST: u64 = 4;

/// Layers, a cache as often as windows of two of the mappings.
const LETTERS: [char; 6] = ['c', 'c', 'd', 'o', 's', 't'];

/// What is made wrong in a window: a refusal by its number, or an extent at its edge that arms.
const MISHAPS: [u64; 11] = [11, 12, 13, 14, 15, 21, 22, 23, 24, 25, FAR];
/// The mishap that is none: an extent of just 2^34, or a little less.
pub const FAR: u64 = 0;

/// The random case of a seed and an index: the same one, however many are made.
pub fn case(seed: u64, index: u64) -> Case {
    let mut random = Random::new(seed, index);
    let mut case = blank(&mut random, format!("{seed}.{index}"));
    let mishaps = mishaps(&mut random, &case.layers);
    let layers = std::mem::take(&mut case.layers);
    let mut entries = Vec::new();
    for (height, layer) in layers.iter().enumerate() {
        if let LayerKind::Window(kind) = layer {
            let (below, _, is_whole) = build(&case);
            if !is_whole {
                // There is no memory to plan by, but the format wants a set-up for each window.
                case.set_ups.push(SetUp {
                    board: 0,
                    writes: Vec::new(),
                });
                continue;
            }
            let is_under_window = layers[height + 1..].iter().any(|l| *l != LayerKind::Cache);
            let mishap = |(at, number): &(usize, u64)| (*at == height).then_some(*number);
            let wrong: Vec<u64> = mishaps.iter().filter_map(mishap).collect();
            let plan = table::plan(&mut random, *kind, &below, is_under_window, &wrong);
            entries.extend(plan.entries);
            let seal = case.changes.len() - 1;
            case.changes.splice(seal..seal, plan.changes);
            case.set_ups.push(plan.set_up);
        }
        case.layers = layers[..=height].to_vec();
    }
    case.layers = layers;
    flips(&mut random, &mut case, &entries);
    let (memory, _, is_whole) = build(&case);
    case.calls = calls::calls(&mut random, &memory, is_whole);
    if random.percent(12) && !entries.is_empty() {
        let entry = case.kind.index(random.pick(&entries));
        case.shows.push((entry, random.pick(&[1, 4, 16])));
    }
    case
}

/// A case with its bottom and the letters of its layers, and no window set up.
fn blank(random: &mut Random, name: String) -> Case {
    let kind = random.pick(&[Kind::Plain, Kind::Checked, Kind::Checked]);
    let layers = stack(random);
    let windows = layers.iter().filter(|l| **l != LayerKind::Cache).count() as u64;
    let cells = match windows {
        0 => LINE * random.pick(&[0, 1, 2, 3, 4, 9, 17, 24, 33, 40, 70, 129]),
        _ => pages(random, windows) * PAGE + odd_lines(random),
    };
    let rest = random.pick(&[0, 0, 1, 42, 127]);
    Case {
        name,
        kind,
        layers,
        length: (cells / LINE * kind.line_bytes() + rest) as usize,
        changes: vec![Change::Fill(random.below(1 << 31)), Change::Seal],
        set_ups: Vec::new(),
        calls: Vec::new(),
        shows: Vec::new(),
    }
}

/// Any layers, from the bottom up: more often two and more than one or none.
fn stack(random: &mut Random) -> Vec<LayerKind> {
    let height = random.pick(&[0, 1, 1, 2, 2, 2, 3, 3, 3, HIGHEST, HIGHEST, HIGHEST]);
    let letters = (0..height).map(|_| random.pick(&LETTERS));
    letters.filter_map(LayerKind::of).collect()
}

fn pages(random: &mut Random, windows: u64) -> u64 {
    match random.below(20) {
        0 => random.below(3),
        1 | 2 => random.range(20, 40),
        _ => random.range(2, 8) + windows * windows + 2 * windows,
    }
}

/// Lines past the last whole page.
fn odd_lines(random: &mut Random) -> u64 {
    LINE * random.pick(&[0, 0, 0, 1, 5, 31])
}

/// What goes wrong, and at which height; in most cases nothing.
fn mishaps(random: &mut Random, layers: &[LayerKind]) -> Vec<(usize, u64)> {
    let is_window = |height: &usize| layers[*height] != LayerKind::Cache;
    let windows: Vec<usize> = (0..layers.len()).filter(is_window).collect();
    if windows.is_empty() || !random.percent(34) {
        return Vec::new();
    }
    // Mostly the uppermost window: above a window that is shut there is little to see.
    let height = match random.percent(60) {
        true => windows[windows.len() - 1],
        false => random.pick(&windows),
    };
    let mut wrong = vec![(height, random.pick(&MISHAPS))];
    if wrong[0].1 == 21 && random.percent(25) {
        wrong.push((height, 22));
    }
    if random.percent(20) {
        wrong.push((height, random.pick(&MISHAPS)));
    }
    wrong
}

/// Bits that turn over in lines of tables, under cells of the top, and anywhere.
fn flips(random: &mut Random, case: &mut Case, entries: &[u64]) {
    let (memory, _, _) = build(case);
    let chance = match case.kind {
        Kind::Checked => 55,
        Kind::Plain => 4,
    };
    while random.percent(chance) && case.changes.len() < 400 {
        // Lines of tables seldom: one of them has many entries.
        let cell = match random.below(12) {
            0 if !entries.is_empty() => Some(random.pick(entries)),
            1..5 => Some(random.below(memory.bottom().size())),
            _ => memory.home(random.below(memory.size().min(16 * PAGE))),
        };
        let Some(cell) = cell else {
            continue;
        };
        let mut index = case.kind.index(cell);
        if random.percent(10) {
            // The check byte itself, or a byte that is nobody's.
            index = random.pick(&[case.kind.index(cell / LINE * LINE) + 128, case.length]);
        }
        let bit = random.pick(&[0, 1, 2, 3, 4, 5, 6, 7, 8, 15, 1000]);
        case.changes.push(Change::Flip(index, bit));
    }
}

/// How many whole pages a memory has.
fn whole_pages(memory: &Memory) -> u64 {
    memory.size() / PAGE
}

#[cfg(test)]
mod tests {
    use super::*;
    use crate::case::parse;
    use crate::play::answers;

    #[test]
    fn each_letter_is_a_layer() {
        assert!(LETTERS.into_iter().all(|c| LayerKind::of(c).is_some()));
    }

    /// The same case for the same seed; it is read as it was written; and its answers are those of what was read. Built for
    /// tests, each call compares the cells with what came of the calls below.
    #[test]
    fn random_cases_agree_with_themselves() {
        for index in 0..300 {
            let made = case(99, index);
            assert_eq!(made, case(99, index));
            let read = parse(&made.to_string()).unwrap();
            assert_eq!(read, [made.clone()]);
            answers(&made);
            if let Some(twin) = twin(&made, 99, index) {
                assert_eq!(differs(&answers(&made), &answers(&twin)), None);
            }
        }
    }
}
