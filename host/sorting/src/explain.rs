//! Why a window has its level: the sums on both sides of half, and what sort of window it is.

use crate::window::Window;

/// What sort of window it is; no window is of two sorts.
#[derive(Clone, Copy, Debug, PartialEq, Eq)]
pub enum Cause {
    Ordinary,
    /// There are readings, and their own weights sum to 0.
    Hollow,
    /// Not steady: the weight formula is negative at guide 0.
    NegativeAtZero,
    /// Not steady: the weight formula is negative at the last guide.
    NegativeAtLast,
    /// No pixel has a reading.
    Empty,
}

impl Cause {
    /// All causes, by rising number.
    pub const ALL: [Cause; 5] =
        [Cause::Ordinary, Cause::Hollow, Cause::NegativeAtZero, Cause::NegativeAtLast, Cause::Empty];

    /// The C interface's number of the cause.
    pub fn number(self) -> u32 {
        match self {
            Cause::Ordinary => 1,
            Cause::Hollow => 2,
            Cause::NegativeAtZero => 3,
            Cause::NegativeAtLast => 4,
            Cause::Empty => 5,
        }
    }

    fn of(window: &Window) -> Cause {
        match (window.negative_at, window.hollow(), window.empty()) {
            ([false, false], false, false) => Cause::Ordinary,
            ([false, false], true, false) => Cause::Hollow,
            ([true, false], false, false) => Cause::NegativeAtZero,
            ([false, true], false, false) => Cause::NegativeAtLast,
            ([false, false], false, true) => Cause::Empty,
            more => panic!("a window with more than one cause: {more:?}"),
        }
    }
}

/// The answer of a window and its grounds, by the counted weights: no reading and zeros where it is empty.
#[derive(Clone, Copy, Debug, PartialEq, Eq)]
pub struct Explanation {
    /// n: the window's pixels.
    pub pixels: usize,
    /// T: what they weigh.
    pub total: i64,
    /// m: the answer.
    pub level: u16,
    /// U(m - 1): what the levels below the answer weigh; 0 where it is level 0.
    pub below: i64,
    /// U(m): the same with the answer's own level.
    pub reached: i64,
    pub cause: Cause,
}

impl Explanation {
    pub fn of(window: &Window) -> Explanation {
        let level = window.answer();
        let sum = |meant: fn(u16, u16) -> bool| -> i64 {
            window.counted().filter(|&(other, _)| meant(other, level)).map(|(_, weight)| weight).sum()
        };
        Explanation {
            pixels: window.pixels.len(),
            total: sum(|_, _| true),
            level,
            below: sum(|other, level| other < level),
            reached: sum(|other, level| other <= level),
            cause: Cause::of(window),
        }
    }
}
