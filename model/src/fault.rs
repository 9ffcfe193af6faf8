//! Faults: why a call was refused, how deep, and where (memory.md, "Faults").

/// Why a call was refused. The discriminant is the number of the cause.
#[derive(Clone, Copy, Debug, PartialEq, Eq)]
pub enum Cause {
    BadRun = 1,
    PastEnd = 2,
    Blank = 3,
    NoPage = 4,
    PageOut = 5,
    FailedCheck = 6,
}

#[derive(Clone, Copy, Debug, PartialEq, Eq)]
pub struct Fault {
    pub cause: Cause,
    pub depth: u8,
    pub place: u64,
}

impl Fault {
    /// A fault that arises in the memory that is asked.
    pub fn here(cause: Cause, place: u64) -> Fault {
        Fault {
            cause,
            depth: 0,
            place,
        }
    }

    /// The same fault as the layer above gives it: one deeper, stopping at 255.
    pub fn passed_up(self) -> Fault {
        Fault {
            depth: self.depth.saturating_add(1),
            ..self
        }
    }
}

#[cfg(test)]
mod tests {
    use super::*;

    #[test]
    fn depth_stops_at_255() {
        let mut fault = Fault::here(Cause::FailedCheck, 8);
        for _ in 0..300 {
            fault = fault.passed_up();
        }
        assert_eq!(fault.depth, 255);
        assert_eq!(fault.place, 8);
        assert_eq!(fault.cause as u8, 6);
    }
}
