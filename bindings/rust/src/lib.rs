//! Windows over bytes, by the proved library: a card borrows bytes, and each call opens a window over them, does its work and closes it.
//!
//! The calls are those of `bindings/c/card.h`. What their caller has to keep is kept here by types: lengths come from slices, the bytes are
//! borrowed for the life of the card, and a call borrows them mutably. `docs/linking.md` says what is proved of each call.

mod calls;
mod error;
mod setup;

pub use error::{Cause, Error, Fault, Reason, Refusal};
pub use setup::{Cache, Format, Mapping, Setup};

use calls::{RawAnswer, RawSetup};

/// Bytes of a line of a window.
pub const LINE: usize = 128;

/// Bytes of a page.
pub const PAGE: usize = 4096;

/// What was counted during one call.
#[derive(Clone, Copy, PartialEq, Eq, Debug, Default)]
pub struct Report {
    pub lookups: u64,
    pub fills: u64,
    /// Reads of lines that the cache was asked for, and those that it held.
    pub reads: u64,
    pub hits: u64,
    pub prefetches: u64,
    /// Hits of a thousand reads.
    pub share: u64,
}

/// A setup over borrowed bytes.
pub struct Card<'a> {
    setup: RawSetup,
    bytes: &'a mut [u8],
    board: Vec<u8>,
}

impl<'a> Card<'a> {
    /// A card over these bytes, if a window opens over them.
    pub fn open(setup: Setup, bytes: &'a mut [u8]) -> Result<Card<'a>, Refusal> {
        let board = vec![0; bytes.len() / PAGE];
        let mut card = Card {
            setup: setup.raw(),
            bytes,
            board,
        };
        let answer = calls::check(card.setup, card.bytes, &mut card.board);
        match answer.refused() {
            Some(refusal) => Err(refusal),
            None => Ok(card),
        }
    }

    /// Fills the buffer from the window, from the address on, line by line. Where a run is refused, the error says how many bytes before
    /// it the buffer holds.
    pub fn read(&mut self, address: u64, buffer: &mut [u8]) -> Result<Report, Error> {
        outcome(calls::read(self.setup, self.bytes, &mut self.board, address, buffer))
    }

    /// The line of this number.
    pub fn line(&mut self, number: u64) -> Result<[u8; LINE], Error> {
        let mut line = [0; LINE];
        self.read(number.saturating_mul(LINE as u64), &mut line)?;
        Ok(line)
    }

    /// Writes the content into the window, from the address on, the same way.
    pub fn write(&mut self, address: u64, content: &[u8]) -> Result<Report, Error> {
        outcome(calls::write(self.setup, self.bytes, &mut self.board, address, content))
    }

    /// The bytes, which the caller may look at while the card has them.
    pub fn bytes(&self) -> &[u8] {
        self.bytes
    }

    /// Gives the bytes back.
    pub fn close(self) -> &'a mut [u8] {
        self.bytes
    }
}

fn outcome(answer: RawAnswer) -> Result<Report, Error> {
    if let Some(refusal) = answer.refused() {
        return Err(Error::Refused(refusal));
    }
    match answer.faulted() {
        Some(fault) => Err(Error::Faulted(fault)),
        None => Ok(answer.report()),
    }
}
