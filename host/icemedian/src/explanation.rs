//! Why a pixel has its level.

use crate::raw::Explained;
use crate::{reading, Refusal};

/// What sort of window a pixel has; exactly one applies.
#[derive(Clone, Copy, Debug, PartialEq, Eq)]
pub enum Cause {
    /// There are readings, none weighs less than 0, and not all weigh 0.
    Ordinary = 1,
    /// There are readings, and none weighs anything, so that each counts 1; only a table of the file's own leaves such
    /// windows.
    Hollow = 2,
    /// Kind 2's weight formula is negative for guide 0: pixels of guides near it count against their own level, so
    /// that the levels up to one may weigh less than those up to a lower one.
    NegativeAtZero = 3,
    /// The same for the last guide.
    NegativeAtLast = 4,
    /// No pixel has a reading.
    Empty = 5,
}

impl Cause {
    /// All causes, by rising number.
    pub const ALL: [Cause; 5] =
        [Cause::Ordinary, Cause::Hollow, Cause::NegativeAtZero, Cause::NegativeAtLast, Cause::Empty];

    /// The cause of a number of the C interface, if it has one.
    ///
    /// ```
    /// use icemedian::Cause;
    ///
    /// assert_eq!(Cause::of_number(2), Some(Cause::Hollow));
    /// assert_eq!(Cause::of_number(6), None);
    /// ```
    pub fn of_number(number: u32) -> Option<Cause> {
        Cause::ALL.into_iter().find(|&cause| cause as u32 == number)
    }
}

/// The grounds of a pixel's level: on one side of half is what the levels below it weigh, on the other what they
/// weigh with it. Where there is a level, 2 * `below` < `total` <= 2 * `reached`.
///
/// ```
/// use icemedian::{explain, write, Cause, Explanation, Settings, NO_READING};
///
/// let settings = Settings { width: 2, height: 1, levels: 8, guides: 4, ..Settings::default() };
/// let file = write(&settings, &[NO_READING; 2], &[0, 3], &[])?;
/// let empty = Explanation { pixels: 0, total: 0, level: None, below: 0, reached: 0, cause: Cause::Empty };
/// assert_eq!(explain(&file, (0, 0)), Ok(empty));
/// # Ok::<(), icemedian::Refusal>(())
/// ```
#[derive(Clone, Copy, Debug, PartialEq, Eq)]
pub struct Explanation {
    /// How many readings the window has.
    pub pixels: usize,
    /// What they weigh in all.
    pub total: i64,
    /// The answer at the pixel; none where its window has no reading, and then all sums are 0.
    pub level: Option<u16>,
    /// What the pixels of lower levels weigh; 0 for level 0.
    pub below: i64,
    /// The same with the pixels of the level itself.
    pub reached: i64,
    /// What sort of window it is. In a [`Cause::Hollow`] one the sums count pixels.
    pub cause: Cause,
}

impl Explanation {
    pub(crate) fn of(explained: &Explained) -> Result<Explanation, Refusal> {
        let &Explained { pixels, total, level, below, reached, cause } = explained;
        let cause = Cause::of_number(cause).ok_or(Refusal::UnknownCause { cause })?;
        Ok(Explanation { pixels, total, level: reading(level), below, reached, cause })
    }
}

#[cfg(test)]
mod tests {
    use super::*;

    #[test]
    fn a_cause_that_no_document_has_is_no_explanation() {
        let refusal = Explanation::of(&Explained { cause: 6, ..Explained::default() }).unwrap_err();
        assert_eq!(refusal, Refusal::UnknownCause { cause: 6 });
        assert_eq!(refusal.to_string(), "refused 0: a cause, 6, that document 02 does not have");
    }
}
