//! Why a call was refused, with the numbers of `docs/mappings.md`, `docs/windows.md` and `docs/memory.md`.

use std::error;
use std::fmt;

/// Why no window opens. The library's reasons 31 to 33 are of numbers that choose nothing, which no `Setup` has.
#[derive(Clone, Copy, PartialEq, Eq, Debug)]
pub enum Reason {
    NoRegister,
    TooWide,
    BadImage,
    BadCondition,
    TooFar,
    ShortBoard,
    TableOutside,
    FrameOutside,
    FrameInTable,
    FrameTaken,
    /// A number that this crate does not know: the library is another one.
    Other(u64),
}

impl Reason {
    pub(crate) fn of_number(number: u64) -> Option<Reason> {
        Some(match number {
            0 => return None,
            11 => Reason::NoRegister,
            12 => Reason::TooWide,
            13 => Reason::BadImage,
            14 => Reason::BadCondition,
            15 => Reason::TooFar,
            21 => Reason::ShortBoard,
            22 => Reason::TableOutside,
            23 => Reason::FrameOutside,
            24 => Reason::FrameInTable,
            25 => Reason::FrameTaken,
            other => Reason::Other(other),
        })
    }

    pub fn number(self) -> u64 {
        match self {
            Reason::NoRegister => 11,
            Reason::TooWide => 12,
            Reason::BadImage => 13,
            Reason::BadCondition => 14,
            Reason::TooFar => 15,
            Reason::ShortBoard => 21,
            Reason::TableOutside => 22,
            Reason::FrameOutside => 23,
            Reason::FrameInTable => 24,
            Reason::FrameTaken => 25,
            Reason::Other(number) => number,
        }
    }
}

/// Why no window opens: the reason, and the register or the entry of the page table that decided it, where one did.
#[derive(Clone, Copy, PartialEq, Eq, Debug)]
pub struct Refusal {
    pub reason: Reason,
    pub number: u64,
}

/// Why a run was refused.
#[derive(Clone, Copy, PartialEq, Eq, Debug)]
pub enum Cause {
    BadRun,
    PastEnd,
    Blank,
    NoPage,
    PageOut,
    FailedCheck,
    /// A number that this crate does not know: the library is another one.
    Other(u64),
}

impl Cause {
    pub(crate) fn of_number(number: u64) -> Option<Cause> {
        Some(match number {
            0 => return None,
            1 => Cause::BadRun,
            2 => Cause::PastEnd,
            3 => Cause::Blank,
            4 => Cause::NoPage,
            5 => Cause::PageOut,
            6 => Cause::FailedCheck,
            other => Cause::Other(other),
        })
    }

    pub fn number(self) -> u64 {
        match self {
            Cause::BadRun => 1,
            Cause::PastEnd => 2,
            Cause::Blank => 3,
            Cause::NoPage => 4,
            Cause::PageOut => 5,
            Cause::FailedCheck => 6,
            Cause::Other(number) => number,
        }
    }
}

/// A run that was refused: its cause, how many layers below it arose and at which address there, and how many bytes were read or written
/// before it.
#[derive(Clone, Copy, PartialEq, Eq, Debug)]
pub struct Fault {
    pub cause: Cause,
    pub depth: u64,
    pub place: u64,
    pub done: u64,
}

#[derive(Clone, Copy, PartialEq, Eq, Debug)]
pub enum Error {
    /// No window opened. A card that was opened does not meet this: its bytes are its own, and of the page table a call sets marks alone.
    Refused(Refusal),
    /// A run was refused.
    Faulted(Fault),
}

impl fmt::Display for Refusal {
    fn fmt(&self, f: &mut fmt::Formatter<'_>) -> fmt::Result {
        write!(f, "{:?} (reason {}), number {}", self.reason, self.reason.number(), self.number)
    }
}

impl fmt::Display for Fault {
    fn fmt(&self, f: &mut fmt::Formatter<'_>) -> fmt::Result {
        let Fault { cause, depth, place, done } = self;
        write!(f, "{cause:?} (cause {}), depth {depth}, place {place}, after {done} bytes", cause.number())
    }
}

impl fmt::Display for Error {
    fn fmt(&self, f: &mut fmt::Formatter<'_>) -> fmt::Result {
        match self {
            Error::Refused(refusal) => refusal.fmt(f),
            Error::Faulted(fault) => fault.fmt(f),
        }
    }
}

impl error::Error for Refusal {}

impl error::Error for Fault {}

impl error::Error for Error {}
