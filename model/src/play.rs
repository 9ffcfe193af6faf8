//! Plays a case, and says what came of it (docs/cases.md, "Answers").

use std::fmt::Write;

use crate::cache::Cache;
use crate::case::{Call, Case, LayerKind, SetUp, hex};
use crate::fault::Fault;
use crate::mapping::{self, Mapping, RegisterSet};
use crate::memory::{LINE, Memory, PAGE};
use crate::page_table::Table;
use crate::window::Window;

/// What a board's bytes are before an opening.
const BOARD: u8 = 0xFF;
/// What a buffer's bytes are before a read.
const BUFFER: u8 = 0xA5;

/// Why a set-up was refused: the number of the refusal, and the register write if it was one.
#[derive(Clone, Debug, PartialEq, Eq)]
pub struct SetUpRefusal {
    pub number: u64,
    pub write: Option<(u64, u64)>,
    /// Which clauses of arming fail; the answers do not tell.
    pub failed: Vec<&'static str>,
}

/// Something that came of a case, in the order of the answers.
#[derive(Clone, Debug, PartialEq, Eq)]
pub enum Event {
    Bottom {
        size: u64,
    },
    Cache {
        size: u64,
    },
    Refused {
        kind: mapping::Kind,
        refusal: SetUpRefusal,
        board: usize,
    },
    Opened {
        kind: mapping::Kind,
        reason: u64,
        entry: u64,
        size: u64,
        board: usize,
        /// The table, and the whole pages of the memory below; the answers do not tell.
        table: Table,
        pages: u64,
    },
    Read(Result<Vec<u8>, (Fault, bool)>),
    Written(Result<(), Fault>),
    WindowReport([u64; 5]),
    CacheReport([u64; 4]),
    Closed {
        length: usize,
        digest: u64,
    },
    Shown(Vec<u8>),
}

/// The stack of a case, with what was said of each layer; it ends below a window whose set-up is refused.
pub fn build(case: &Case) -> (Memory, Vec<Event>, bool) {
    let mut memory = Memory::Bottom(case.bottom());
    let mut events = vec![Event::Bottom {
        size: memory.size(),
    }];
    let mut set_ups = case.set_ups.iter();
    for layer in &case.layers {
        match layer {
            LayerKind::Cache => {
                memory = Memory::Cache(Box::new(Cache::new(memory)));
                let size = memory.size();
                events.push(Event::Cache { size });
            }
            LayerKind::Window(kind) => {
                let set_up = set_ups.next().expect("a board line for each window");
                let mut board = vec![BOARD; set_up.board];
                match armed_set(*kind, set_up) {
                    Err(refusal) => {
                        events.push(Event::Refused {
                            kind: *kind,
                            refusal,
                            board: not_zero(&board),
                        });
                        return (memory, events, false);
                    }
                    Ok(mapping) => {
                        let window = Window::open(mapping, memory, &mut board);
                        events.push(opened(&window, &board));
                        memory = Memory::Window(Box::new(window));
                    }
                }
            }
        }
    }
    (memory, events, true)
}

/// The writes in their order, up to the first that is refused, and then arming.
fn armed_set(kind: mapping::Kind, set_up: &SetUp) -> Result<Mapping, SetUpRefusal> {
    let mut set = RegisterSet::new(kind);
    for (number, value) in &set_up.writes {
        set.write(*number, *value).map_err(|refusal| SetUpRefusal {
            number: refusal as u64,
            write: Some((*number, *value)),
            failed: Vec::new(),
        })?;
    }
    let clauses = clauses(&set.mapping());
    set.arm().map_err(|refusal| SetUpRefusal {
        number: refusal as u64,
        write: None,
        failed: clauses
            .iter()
            .filter(|(_, holds)| !holds)
            .map(|(words, _)| *words)
            .collect(),
    })
}

/// All that arming asks for but the extent, in words, and whether it holds.
fn clauses(mapping: &Mapping) -> Vec<(&'static str, bool)> {
    let image = mapping.image_size();
    let mut clauses = vec![
        ("I is not 0", image != 0),
        ("128 divides I", image.is_multiple_of(LINE)),
    ];
    clauses.extend(mapping.clauses());
    clauses
}

fn opened(window: &Window, board: &[u8]) -> Event {
    let report = window.report();
    Event::Opened {
        kind: window.mapping.kind,
        reason: report.reason,
        entry: report.entry,
        size: window.size(),
        board: not_zero(board),
        table: Table::of(&window.mapping),
        pages: window.below.size() / PAGE,
    }
}

fn not_zero(board: &[u8]) -> usize {
    board.iter().filter(|byte| **byte != 0).count()
}

/// Makes one call, and says what came of it.
pub fn make(memory: &mut Memory, call: &Call) -> Event {
    match call {
        Call::Write(address, bytes) => Event::Written(memory.write(*address, bytes)),
        Call::Read(address, length) => {
            let mut buffer = vec![BUFFER; *length];
            let answer = memory.read(*address, &mut buffer);
            let is_kept = buffer.iter().all(|byte| *byte == BUFFER);
            Event::Read(match answer {
                Ok(()) => Ok(buffer),
                Err(fault) => Err((fault, is_kept)),
            })
        }
    }
}

/// The reports from the top down, and then the bottom's bytes: each layer is closed once it has reported.
pub fn close(memory: Memory, shows: &[(usize, usize)]) -> Vec<Event> {
    let mut events = Vec::new();
    let mut open = memory;
    loop {
        events.push(match &open {
            Memory::Bottom(bottom) => {
                events.push(Event::Closed {
                    length: bottom.bytes.len(),
                    digest: digest(&bottom.bytes),
                });
                let shown = shows.iter().map(|(index, length)| {
                    let from = bottom.bytes.iter().skip(*index).take(*length);
                    Event::Shown(from.copied().collect())
                });
                events.extend(shown);
                return events;
            }
            Memory::Window(window) => {
                let report = window.report();
                Event::WindowReport([
                    report.type_number,
                    report.reason,
                    report.entry,
                    report.lookups,
                    report.fills,
                ])
            }
            Memory::Cache(cache) => {
                let report = cache.report();
                Event::CacheReport([report.reads, report.hits, report.prefetches, report.share])
            }
        });
        open = open.close().expect("a layer has a memory below");
    }
}

/// FNV-1a, of 64 bits.
pub fn digest(bytes: &[u8]) -> u64 {
    bytes.iter().fold(0xCBF2_9CE4_8422_2325, |hash, byte| {
        (hash ^ u64::from(*byte)).wrapping_mul(0x0000_0100_0000_01B3)
    })
}

/// All that came of a case. Where a set-up is refused, no call is made.
pub fn events(case: &Case) -> Vec<Event> {
    let (mut memory, mut events, is_whole) = build(case);
    if is_whole {
        for call in &case.calls {
            events.push(make(&mut memory, call));
        }
    }
    events.extend(close(memory, &case.shows));
    events
}

/// The answers of a case, as text.
pub fn answers(case: &Case) -> String {
    let mut text = format!("case {}\n", case.name);
    for event in events(case) {
        write_event(&mut text, &event);
    }
    text.push_str("end\n");
    text
}

fn write_event(text: &mut String, event: &Event) {
    let _ = match event {
        Event::Bottom { size } => writeln!(text, "bottom {size}"),
        Event::Cache { size } => writeln!(text, "cache {size}"),
        Event::Refused {
            kind,
            refusal,
            board,
        } => {
            let letter = LayerKind::Window(*kind).letter();
            let write = refusal.write.map_or(String::new(), |(number, value)| {
                format!(" {number} {value}")
            });
            writeln!(
                text,
                "refused {letter} {}{write}\nboard {board}",
                refusal.number
            )
        }
        Event::Opened {
            kind,
            reason,
            entry,
            size,
            board,
            ..
        } => {
            let letter = LayerKind::Window(*kind).letter();
            writeln!(
                text,
                "armed {letter}\nopened {reason} {entry} {size}\nboard {board}"
            )
        }
        Event::Read(Ok(bytes)) => writeln!(text, "read {}", hex(bytes)),
        Event::Read(Err((fault, is_kept))) => {
            let word = if *is_kept { "kept" } else { "changed" };
            writeln!(text, "{} {word}", fault_text(fault))
        }
        Event::Written(Ok(())) => writeln!(text, "written"),
        Event::Written(Err(fault)) => writeln!(text, "{}", fault_text(fault)),
        Event::WindowReport(numbers) => writeln!(text, "report window {}", spaced(numbers)),
        Event::CacheReport(numbers) => writeln!(text, "report cache {}", spaced(numbers)),
        Event::Closed { length, digest } => writeln!(text, "closed {length} {digest:016X}"),
        Event::Shown(bytes) => writeln!(text, "shown {}", hex(bytes)),
    };
}

fn fault_text(fault: &Fault) -> String {
    format!(
        "fault {} {} {}",
        fault.cause as u8, fault.depth, fault.place
    )
}

fn spaced(numbers: &[u64]) -> String {
    let words: Vec<String> = numbers.iter().map(u64::to_string).collect();
    words.join(" ")
}

#[cfg(test)]
mod tests {
    use super::*;
    use crate::case::parse;

    #[test]
    fn digests() {
        assert_eq!(digest(b""), 0xCBF2_9CE4_8422_2325);
        assert_eq!(digest(b"a"), 0xAF63_DC4C_8601_EC8C);
        assert_eq!(digest(b"foobar"), 0x8594_4171_F739_67E8);
    }

    /// The example of docs/cases.md, which is the list of lists.md.
    #[test]
    fn example_of_the_page() {
        let page = include_str!("../../docs/cases.md");
        let blocks: Vec<&str> = page.split("```").skip(1).step_by(2).collect();
        for pair in blocks.chunks_exact(2) {
            let case = &parse(pair[0].trim_start()).unwrap()[0];
            assert_eq!(answers(case), pair[1].trim_start());
        }
        assert_eq!(blocks.len(), 6);
    }
}
