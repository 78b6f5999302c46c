//! Refusals: document 01's numbers, and the byte offset that comes with number 7.

use std::fmt;

/// Why a call refuses. Only the number, and for 7 an offset, is ever returned.
#[derive(Clone, Copy, Debug, PartialEq, Eq)]
pub struct Refusal {
    /// 1 to 12, as in document 01's table, or document 02's 13 to 15.
    pub number: u8,
    /// For 7, the offset in the file of the first bad number's high byte; otherwise 0.
    pub offset: usize,
}

impl Refusal {
    /// A refusal without an offset.
    pub const fn of(number: u8) -> Refusal {
        Refusal { number, offset: 0 }
    }

    /// Refusal 7: a number at this offset is too large.
    pub const fn contents(offset: usize) -> Refusal {
        Refusal { number: 7, offset }
    }
}

/// The program's line for a refusal, without its line end.
impl fmt::Display for Refusal {
    fn fmt(&self, f: &mut fmt::Formatter<'_>) -> fmt::Result {
        match self.number {
            7 => write!(f, "refused 7 {}", self.offset),
            number => write!(f, "refused {number}"),
        }
    }
}

/// Refuses with `number` if `fires`.
pub fn check(number: u8, fires: bool) -> Result<(), Refusal> {
    if fires {
        Err(Refusal::of(number))
    } else {
        Ok(())
    }
}
