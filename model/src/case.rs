//! Cases as text: what is set up, and which calls are made (docs/cases.md).

use std::fmt::{self, Display, Write};

use crate::bottom::{self, Bottom};
use crate::mapping;

/// A layer of a stack, by its letter: c, d, o, s or t.
#[derive(Clone, Copy, Debug, PartialEq, Eq)]
pub enum LayerKind {
    Cache,
    Window(mapping::Kind),
}

/// What is done to the borrowed bytes, which are 0 at first, before the first layer is made.
#[derive(Clone, Debug, PartialEq, Eq)]
pub enum Change {
    /// Every byte comes from the generator of the format, by this seed.
    Fill(u64),
    /// The cells from an address on, whether their line passes its check or not.
    Cells(u64, Vec<u8>),
    /// So many cells from an address on become 0, likewise.
    Clear(u64, usize),
    /// The check byte of every whole line is worked out; of plain memory nothing changes.
    Seal,
    /// A bit of a borrowed byte turns over.
    Flip(usize, u64),
}

/// The set-up of one window: the length of its board, and its register writes, by number and value.
#[derive(Clone, Debug, PartialEq, Eq)]
pub struct SetUp {
    pub board: usize,
    pub writes: Vec<(u64, u64)>,
}

#[derive(Clone, Debug, PartialEq, Eq)]
pub enum Call {
    Read(u64, usize),
    Write(u64, Vec<u8>),
}

#[derive(Clone, Debug, PartialEq, Eq)]
pub struct Case {
    pub name: String,
    pub kind: bottom::Kind,
    pub layers: Vec<LayerKind>,
    pub length: usize,
    pub changes: Vec<Change>,
    /// One for each window of the stack, from the bottom up.
    pub set_ups: Vec<SetUp>,
    pub calls: Vec<Call>,
    /// Which borrowed bytes are shown at the end: an index and how many.
    pub shows: Vec<(usize, usize)>,
}

impl LayerKind {
    pub fn letter(self) -> char {
        match self {
            LayerKind::Cache => 'c',
            LayerKind::Window(mapping::Kind::Direct) => 'd',
            LayerKind::Window(mapping::Kind::Colour) => 'o',
            LayerKind::Window(mapping::Kind::Stride) => 's',
            LayerKind::Window(mapping::Kind::Transpose) => 't',
        }
    }

    pub fn of(letter: char) -> Option<LayerKind> {
        let all = [
            LayerKind::Cache,
            LayerKind::Window(mapping::Kind::Direct),
            LayerKind::Window(mapping::Kind::Colour),
            LayerKind::Window(mapping::Kind::Stride),
            LayerKind::Window(mapping::Kind::Transpose),
        ];
        all.into_iter().find(|kind| kind.letter() == letter)
    }
}

/// The letters of the layers, from the bottom up.
pub fn letters(layers: &[LayerKind]) -> String {
    layers.iter().map(|kind| kind.letter()).collect()
}

pub fn kind_word(kind: bottom::Kind) -> &'static str {
    match kind {
        bottom::Kind::Plain => "plain",
        bottom::Kind::Checked => "checked",
    }
}

impl Case {
    /// The bottom with its borrowed bytes, as they are before the first layer.
    pub fn bottom(&self) -> Bottom {
        let mut bottom = Bottom::new(self.kind, vec![0; self.length]);
        for change in &self.changes {
            change.make(&mut bottom);
        }
        bottom
    }
}

impl Change {
    fn make(&self, bottom: &mut Bottom) {
        match self {
            Change::Fill(seed) => fill(&mut bottom.bytes, *seed),
            Change::Cells(address, bytes) => put(bottom, *address, bytes),
            Change::Clear(address, length) => put(bottom, *address, &vec![0; *length]),
            Change::Seal if bottom.kind == bottom::Kind::Checked => {
                let lines = bottom.bytes.len() as u64 / bottom::CHECKED_LINE;
                (0..lines).for_each(|line| bottom.seal(line));
            }
            Change::Seal => {}
            Change::Flip(index, bit) => bottom::flip(&mut bottom.bytes, *index, *bit),
        }
    }
}

/// Cells become bytes; no check byte is worked out.
fn put(bottom: &mut Bottom, address: u64, bytes: &[u8]) {
    for (cell, byte) in (address..).zip(bytes) {
        let index = bottom.kind.index(cell);
        bottom.bytes[index] = *byte;
    }
}

/// The generator of the format: a step of a linear congruence for each byte, of which bits 16 to 23 are taken.
pub fn fill(bytes: &mut [u8], seed: u64) {
    let mut x = seed % (1 << 31);
    for byte in bytes {
        x = (x * 1_103_515_245 + 12_345) % (1 << 31);
        *byte = (x >> 16) as u8;
    }
}

/// Two digits to a byte, or a dash where there is none.
pub fn hex(bytes: &[u8]) -> String {
    if bytes.is_empty() {
        return "-".to_string();
    }
    let mut text = String::with_capacity(2 * bytes.len());
    for byte in bytes {
        let _ = write!(text, "{byte:02X}");
    }
    text
}

fn unhex(text: &str) -> Option<Vec<u8>> {
    if text == "-" {
        return Some(Vec::new());
    }
    if !text.len().is_multiple_of(2) || !text.is_ascii() {
        return None;
    }
    let pairs = (0..text.len()).step_by(2);
    pairs
        .map(|i| u8::from_str_radix(&text[i..i + 2], 16).ok())
        .collect()
}

impl Display for Case {
    fn fmt(&self, f: &mut fmt::Formatter) -> fmt::Result {
        writeln!(f, "case {}", self.name)?;
        write!(f, "stack {}", kind_word(self.kind))?;
        for kind in &self.layers {
            write!(f, " {}", kind.letter())?;
        }
        writeln!(f, "\nbytes {}", self.length)?;
        for change in &self.changes {
            match change {
                Change::Fill(seed) => writeln!(f, "fill {seed}")?,
                Change::Cells(address, bytes) => writeln!(f, "cells {address} {}", hex(bytes))?,
                Change::Clear(address, length) => writeln!(f, "clear {address} {length}")?,
                Change::Seal => writeln!(f, "seal")?,
                Change::Flip(index, bit) => writeln!(f, "flip {index} {bit}")?,
            }
        }
        for set_up in &self.set_ups {
            writeln!(f, "board {}", set_up.board)?;
            for (number, value) in &set_up.writes {
                writeln!(f, "register {number} {value}")?;
            }
        }
        for call in &self.calls {
            match call {
                Call::Read(address, length) => writeln!(f, "read {address} {length}")?,
                Call::Write(address, bytes) => writeln!(f, "write {address} {}", hex(bytes))?,
            }
        }
        for (index, length) in &self.shows {
            writeln!(f, "show {index} {length}")?;
        }
        writeln!(f, "end")
    }
}

/// All cases of a text, or the number of the first bad line and why.
pub fn parse(text: &str) -> Result<Vec<Case>, String> {
    let mut cases = Vec::new();
    let mut open: Option<Case> = None;
    for (number, line) in text.lines().enumerate() {
        let words: Vec<&str> = line.split(' ').collect();
        let taken = match (&mut open, words.as_slice()) {
            (None, ["case", name]) => {
                open = Some(blank_case(name));
                Some(())
            }
            (Some(_), ["end"]) => open.take().map(|case| cases.push(case)),
            (Some(case), _) => take_line(case, &words),
            (None, _) => None,
        };
        taken.ok_or_else(|| format!("line {}: {line:?} is not understood", number + 1))?;
    }
    match open {
        Some(case) => Err(format!("case {} has no end", case.name)),
        None => Ok(cases),
    }
}

fn blank_case(name: &str) -> Case {
    Case {
        name: name.to_string(),
        kind: bottom::Kind::Plain,
        layers: Vec::new(),
        length: 0,
        changes: Vec::new(),
        set_ups: Vec::new(),
        calls: Vec::new(),
        shows: Vec::new(),
    }
}

/// Takes one line of a case that is open; nothing where it is not understood.
fn take_line(case: &mut Case, words: &[&str]) -> Option<()> {
    match words {
        ["stack", kind, layers @ ..] => {
            case.kind = match *kind {
                "plain" => bottom::Kind::Plain,
                "checked" => bottom::Kind::Checked,
                _ => return None,
            };
            case.layers = layers
                .iter()
                .map(|word| LayerKind::of(word.parse().ok()?))
                .collect::<Option<_>>()?;
        }
        ["bytes", length] => case.length = length.parse().ok()?,
        ["fill", seed] => case.changes.push(Change::Fill(seed.parse().ok()?)),
        ["cells", address, bytes] => {
            let change = Change::Cells(address.parse().ok()?, unhex(bytes)?);
            case.changes.push(change);
        }
        ["clear", address, length] => {
            let change = Change::Clear(address.parse().ok()?, length.parse().ok()?);
            case.changes.push(change);
        }
        ["seal"] => case.changes.push(Change::Seal),
        ["flip", index, bit] => {
            let change = Change::Flip(index.parse().ok()?, bit.parse().ok()?);
            case.changes.push(change);
        }
        ["board", length] => case.set_ups.push(SetUp {
            board: length.parse().ok()?,
            writes: Vec::new(),
        }),
        ["register", number, value] => {
            let write = (number.parse().ok()?, value.parse().ok()?);
            case.set_ups.last_mut()?.writes.push(write);
        }
        ["read", address, length] => {
            let call = Call::Read(address.parse().ok()?, length.parse().ok()?);
            case.calls.push(call);
        }
        ["write", address, bytes] => {
            let call = Call::Write(address.parse().ok()?, unhex(bytes)?);
            case.calls.push(call);
        }
        ["show", index, length] => {
            let show = (index.parse().ok()?, length.parse().ok()?);
            case.shows.push(show);
        }
        _ => return None,
    }
    Some(())
}

#[cfg(test)]
mod tests {
    use super::*;

    const TEXT: &str = "case 7\nstack checked c s\nbytes 300\nfill 5\ncells 4 8000\nclear 8 2\nseal\nflip 3 7\nboard 8\n\
        register 0 256\nregister 18446744073709551615 1\nread 4 4\nwrite 12 -\nwrite 12 00FF\nshow 0 4\nend\n";

    #[test]
    fn a_case_comes_back_as_it_was_written() {
        let cases = parse(TEXT).unwrap();
        assert_eq!(cases.len(), 1);
        assert_eq!(cases[0].to_string(), TEXT);
        assert_eq!(letters(&cases[0].layers), "cs");
        assert_eq!(
            parse("case 1\nend\ncase 2\n"),
            Err("case 2 has no end".to_string())
        );
        assert!(parse("case 1\nregister 0 1\nend\n").is_err());
    }

    #[test]
    fn fill_of_the_page() {
        let mut bytes = [0; 4];
        fill(&mut bytes, 1);
        assert_eq!(bytes, [0xC6, 0x7E, 0x81, 0x6B]);
    }
}
