//! Random cards, asked by the library and by the second model of `model/`: answers, buffers, what is counted, and the bytes afterwards.

use model::bottom::{self, Bottom};
use model::cache::Cache as ModelCache;
use model::mapping::{Kind, RegisterSet};
use model::memory::{Access, LINE, Memory, PAGE};
use model::random::Random;
use model::window::Window;
use tingerbil::{Cache, Card, Error, Format, Mapping, Report, Setup};

const CASES: u64 = 4_000;

/// What a call came to: the reason and its number; or the cause, depth, place and `done`; or what was counted.
#[derive(PartialEq, Eq, Debug)]
enum Outcome {
    Refused(u64, u64),
    Faulted(u64, u64, u64, u64),
    Counted(Report),
}

struct Case {
    kind: Kind,
    registers: [u64; 5],
    format: bottom::Kind,
    cache: Cache,
}

impl Case {
    fn setup(&self) -> Setup {
        let [image_size, table_page, a, b, c] = self.registers;
        let mapping = match self.kind {
            Kind::Direct => Mapping::Direct { image_size, table_page },
            Kind::Colour => Mapping::Colour { image_size, table_page, way_size: a, colour_size: b, colour_offset: c },
            Kind::Stride => Mapping::Stride { image_size, table_page, object_size: a, stride: b, object_offset: c },
            Kind::Transpose => Mapping::Transpose { image_size, table_page, element_size: a, row_size: b, row_count: c },
        };
        let format = match self.format {
            bottom::Kind::Plain => Format::Plain,
            bottom::Kind::Checked => Format::Checked,
        };
        Setup { mapping, format, cache: self.cache }
    }

    /// The model's stack over these bytes, or the refusal of its registers or its opening.
    fn stack(&self, bytes: &[u8]) -> Result<Memory, Outcome> {
        let mut set = RegisterSet::new(self.kind);
        for (number, value) in (0..).zip(self.registers) {
            if value != 0 {
                set.write(number, value).map_err(|refusal| Outcome::Refused(refusal as u64, number))?;
            }
        }
        let mapping = set.arm().map_err(|refusal| Outcome::Refused(refusal as u64, 0))?;
        let mut below = Memory::Bottom(Bottom::new(self.format, bytes.to_vec()));
        if self.cache == Cache::Under {
            below = Memory::Cache(Box::new(ModelCache::new(below)));
        }
        let window = Window::open(mapping, below, &mut vec![0; bytes.len() / PAGE as usize]);
        if let Err(refusal) = window.opening {
            return Err(Outcome::Refused(refusal.reason as u64, refusal.entry));
        }
        let window = Memory::Window(Box::new(window));
        Ok(match self.cache {
            Cache::Over => Memory::Cache(Box::new(ModelCache::new(window))),
            _ => window,
        })
    }

    /// One call on a new stack, cut into runs.
    fn ask(&self, bytes: &mut Vec<u8>, access: Access, address: u64, buffer: &mut [u8]) -> Outcome {
        let mut memory = match self.stack(bytes) {
            Ok(memory) => memory,
            Err(refusal) => return refusal,
        };
        let mut done = 0;
        let outcome = loop {
            let from = address + done as u64;
            let run = ((LINE - from % LINE) as usize).min(buffer.len() - done);
            let part = &mut buffer[done..done + run];
            let answer = match access {
                Access::Read => memory.read(from, part),
                Access::Write => memory.write(from, part),
            };
            if let Err(fault) = answer {
                break Outcome::Faulted(fault.cause as u64, fault.depth.into(), fault.place, done as u64);
            }
            done += run;
            if done == buffer.len() {
                break Outcome::Counted(report(&memory));
            }
        };
        bytes.clone_from(&memory.bottom().bytes);
        outcome
    }
}

/// What the window and the cache of a stack have counted.
fn report(memory: &Memory) -> Report {
    let mut report = Report::default();
    let mut next = Some(memory);
    while let Some(layer) = next {
        match layer {
            Memory::Bottom(_) => {}
            Memory::Window(window) => {
                let counted = window.report();
                report.lookups = counted.lookups;
                report.fills = counted.fills;
            }
            Memory::Cache(cache) => {
                let counted = cache.report();
                report.reads = counted.reads;
                report.hits = counted.hits;
                report.prefetches = counted.prefetches;
                report.share = counted.share;
            }
        }
        next = layer.below();
    }
    report
}

fn outcome(answer: Result<Report, Error>) -> Outcome {
    match answer {
        Ok(report) => Outcome::Counted(report),
        Err(Error::Refused(refusal)) => Outcome::Refused(refusal.reason.number(), refusal.number),
        Err(Error::Faulted(fault)) => Outcome::Faulted(fault.cause.number(), fault.depth, fault.place, fault.done),
    }
}

/// Registers that mostly arm.
fn registers(random: &mut Random, kind: Kind, table_page: u64) -> [u64; 5] {
    let lines = random.range(1, 8) * LINE;
    let mut values = match kind {
        Kind::Direct => [lines * random.range(1, 12), table_page, 0, 0, 0],
        Kind::Colour => {
            let way = PAGE << random.below(2);
            [way * random.range(1, 3), table_page, way, PAGE, PAGE * random.below(way / PAGE)]
        }
        Kind::Stride => [lines, table_page, 4 << random.below(4), LINE * random.range(1, 8), 32 * random.below(4)],
        Kind::Transpose => [lines, table_page, 4 << random.below(3), LINE * random.range(2, 16), 1 << random.below(6)],
    };
    if random.percent(8) {
        values[random.below(kind.widths().len() as u64) as usize] = random.next() >> random.below(64);
    }
    values
}

/// Bytes with a page table that is mostly good, a part of it not valid or out, and in checked memory now and then a flipped bit.
fn bytes_of(random: &mut Random, format: bottom::Kind, pages: u64, table_page: u64) -> Vec<u8> {
    let length = pages * PAGE / LINE * format.line_bytes() + random.below(100);
    let mut bottom = Bottom::new(format, random.bytes(length as usize));
    if format == bottom::Kind::Checked {
        (0..pages * PAGE / LINE).for_each(|line| bottom.seal(line));
    }
    let mut frames: Vec<u64> = (0..pages).filter(|page| *page != table_page).collect();
    random.shuffle(&mut frames);
    for entry in 0..64 {
        let mut frame = frames.get(entry as usize).copied().unwrap_or(0);
        if random.percent(1) {
            frame = random.below(pages + 1);
        }
        let dead = entry as usize >= frames.len() || random.percent(8);
        let flags = if !dead { 0x8 } else { random.pick(&[0x0, 0x9, 0x1]) };
        bottom.store(table_page * PAGE + 4 * entry, &((flags << 28 | frame) as u32).to_be_bytes());
    }
    if random.percent(30) {
        let index = random.below(length) as usize;
        bottom::flip(&mut bottom.bytes, index, random.below(8));
    }
    bottom.bytes
}

fn play(index: u64) -> [u64; 3] {
    let mut random = Random::new(7, index);
    let kind = random.pick(&[Kind::Direct, Kind::Colour, Kind::Stride, Kind::Transpose]);
    let format = random.pick(&[bottom::Kind::Plain, bottom::Kind::Checked]);
    let pages = random.range(2, 9);
    let table_page = random.below(pages);
    let case = Case {
        kind,
        registers: registers(&mut random, kind, table_page),
        format,
        cache: random.pick(&[Cache::Absent, Cache::Under, Cache::Over]),
    };
    let mut bytes = bytes_of(&mut random, format, pages, table_page);
    let mut copy = bytes.clone();
    let mut counts = [0; 3];
    let mut card = match Card::open(case.setup(), &mut bytes) {
        Ok(card) => card,
        Err(refusal) => {
            let due = case.stack(&copy).err();
            assert_eq!(Some(Outcome::Refused(refusal.reason.number(), refusal.number)), due, "case {index}");
            counts[0] += 1;
            return counts;
        }
    };
    for _ in 0..8 {
        let address = if random.percent(90) { random.below(case.registers[0] + 8) } else { random.next() };
        let length = random.pick(&[0, 1, 4, 100, 128, 300, 700]);
        let mut buffer = random.bytes(length);
        let mut filled = buffer.clone();
        let access = random.pick(&[Access::Read, Access::Write]);
        let came = outcome(match access {
            Access::Read => card.read(address, &mut filled),
            Access::Write => card.write(address, &filled),
        });
        let due = case.ask(&mut copy, access, address, &mut buffer);
        counts[if matches!(came, Outcome::Counted(_)) { 1 } else { 2 }] += 1;
        assert_eq!(came, due, "case {index}: {access:?} of {length} at {address}");
        assert_eq!(filled, buffer, "case {index}: the buffer of {length} at {address}");
        assert!(card.bytes() == copy, "case {index}: the bytes after {access:?} of {length} at {address}");
    }
    counts
}

#[test]
fn library_and_model_agree() {
    let mut all = [0; 3];
    for index in 0..CASES {
        for (sum, count) in all.iter_mut().zip(play(index)) {
            *sum += count;
        }
    }
    println!("refused {}, done {}, faulted {}", all[0], all[1], all[2]);
    // Each sort of outcome is met often.
    assert!(all.iter().all(|count| *count > CASES / 10), "{all:?}");
}
