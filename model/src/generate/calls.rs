//! The calls of a case, by what the cells of the top are.

use crate::case::Call;
use crate::memory::{LINE, Memory, PAGE};
use crate::random::Random;

pub fn calls(random: &mut Random, memory: &Memory, is_whole: bool) -> Vec<Call> {
    let lines = memory.size() / LINE;
    if lines == 0 || !is_whole {
        let count = random.below(6);
        return (0..count)
            .map(|_| bad_call(random, memory.size()))
            .collect();
    }
    let pool = pool(random, memory, lines);
    let count = match random.below(100) {
        0..3 => 0,
        3..38 => random.range(1, 12),
        38..83 => random.range(13, 40),
        83..95 => random.range(41, 90),
        _ => random.range(91, 200),
    };
    let writes = random.pick(&[10, 30, 50]);
    (0..count)
        .map(|_| match random.below(100) {
            0..14 => bad_call(random, memory.size()),
            14..24 => {
                let line = Line::of(memory, random.below(lines));
                call(random, &line, writes)
            }
            _ => {
                // The first few are asked more often, so that lines and pages are found held.
                let among = random.pick(&[3, pool.len()]).min(pool.len());
                let line = random.pick(&pool[..among]);
                call(random, &line, writes)
            }
        })
        .collect()
}

/// A call that is refused with cause 1 or 2, whatever the cells are.
pub fn bad_call(random: &mut Random, size: u64) -> Call {
    let (address, length) = match random.percent(50) {
        true => {
            let start = random.below(size.max(LINE)) / LINE * LINE;
            let past = random.pick(&[size, u64::MAX - LINE + 1]);
            let line = random.pick(&[start, start, start, past]);
            let offset = random.pick(&[0, 1, 64, 100, 127]);
            let length = random.pick(&[0, 0, LINE - offset + 1, LINE, LINE + 1, 300]);
            let length = match length + offset > LINE {
                true => length,
                false => 0,
            };
            (line + offset, length)
        }
        false => {
            let address = random.pick(&[
                size,
                size,
                size + 1,
                size + 127,
                size + LINE,
                size + PAGE,
                1 << 40,
                1 << 63,
                u64::MAX - 127,
                u64::MAX,
            ]);
            (address, random.range(1, LINE - address % LINE))
        }
    };
    any(random, address, length as usize, 40)
}

/// A call on a run inside a line: mostly about bytes that are no faults, where the line has some.
fn call(random: &mut Random, line: &Line, writes: u64) -> Call {
    let (offset, length) = match line.good.is_empty() || random.percent(35) {
        true => anywhere(random),
        false => {
            let (start, length) = random.pick(&line.good);
            about(random, start, length)
        }
    };
    let length = length.min(LINE - offset);
    any(random, line.number * LINE + offset, length as usize, writes)
}

/// A run of a stretch of good bytes, or one that leaves it by a few bytes.
fn about(random: &mut Random, start: u64, length: u64) -> (u64, u64) {
    match random.below(8) {
        0..3 => (start, length),
        3..6 => {
            let skipped = random.below(length);
            (start + skipped, random.range(1, length - skipped))
        }
        6 => (start, length + random.range(1, 4)),
        _ => {
            let before = random.range(1, 4).min(start);
            (start - before, length + before)
        }
    }
}

fn anywhere(random: &mut Random) -> (u64, u64) {
    let grain = 4 << random.below(6);
    match random.below(8) {
        0 | 1 => (0, LINE),
        2 | 3 => (4 * random.below(32), 4),
        // About where a grain begins.
        4 => {
            let start = grain * random.below(LINE / grain);
            let before = random.below(3).min(start);
            (start - before, before + random.range(1, 3))
        }
        // From a grain on to the end, or up to one.
        5 => {
            let start = grain * random.below(LINE / grain);
            match random.percent(50) {
                true => (start, LINE - start),
                false => (0, start + grain),
            }
        }
        6 => (random.pick(&[0, 127]), 1),
        _ => {
            let offset = random.below(LINE);
            (offset, random.range(1, LINE - offset))
        }
    }
}

fn any(random: &mut Random, address: u64, length: usize, writes: u64) -> Call {
    match random.percent(writes) {
        true => Call::Write(address, random.bytes(length)),
        false => Call::Read(address, length),
    }
}

/// A line of the top, and where the bytes are in it that are no faults: first cells and lengths.
#[derive(Clone)]
struct Line {
    number: u64,
    good: Vec<(u64, u64)>,
}

impl Line {
    /// Four cells that begin at a multiple of four are all bytes or all faults, since no grain is smaller.
    fn of(memory: &Memory, number: u64) -> Line {
        let mut good: Vec<(u64, u64)> = Vec::new();
        for offset in (0..LINE).step_by(4) {
            if memory.cell(number * LINE + offset).is_err() {
                continue;
            }
            match good.last_mut() {
                Some((start, length)) if *start + *length == offset => *length += 4,
                _ => good.push((offset, 4)),
            }
        }
        Line { number, good }
    }
}

/// Lines that most calls go to: good ones first, some with faults, and lines that share a set of a cache with them.
fn pool(random: &mut Random, memory: &Memory, lines: u64) -> Vec<Line> {
    let [mut good, mut mixed, mut bad] = [vec![], vec![], vec![]];
    for number in candidates(random, lines) {
        let line = Line::of(memory, number);
        match line.good.first() {
            None => bad.push(line),
            Some((0, LINE)) => good.push(line),
            _ => mixed.push(line),
        }
    }
    good.truncate(random.range(1, 6) as usize);
    let mut near = Vec::new();
    for line in good.iter().take(3) {
        for step in [1, 8, 16, 9] {
            if line.number + step < lines && random.percent(40) {
                near.push(Line::of(memory, line.number + step));
            }
        }
    }
    mixed.truncate(random.range(2, 5) as usize);
    bad.truncate(random.range(1, 2) as usize);
    let mut pool = good;
    pool.extend(near);
    pool.extend(mixed);
    pool.extend(bad);
    if random.percent(30) {
        pool.rotate_right(1);
    }
    pool
}

/// Lines to look at: all of a small memory; of another some, with those at borders of pages.
fn candidates(random: &mut Random, lines: u64) -> Vec<u64> {
    let mut candidates: Vec<u64> = match lines <= 48 {
        true => (0..lines).collect(),
        false => (0..40).map(|_| random.below(lines)).collect(),
    };
    for page in 1..=lines / 32 {
        if random.percent(20) {
            candidates.extend([32 * page - 1, 32 * page]);
        }
    }
    candidates.push(lines - 1);
    candidates.retain(|line| *line < lines);
    random.shuffle(&mut candidates);
    candidates.dedup();
    candidates
}
