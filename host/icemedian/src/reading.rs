//! What the numbers of planes and answers stand for. Buffers stay numbers, as they are lent; these look at one of them.

/// In a value plane, a dead pixel of the camera: no reading. In what a filter or a walk answers, a window without any.
pub const NO_READING: u16 = 65_535;
/// The answer to a move that would leave the picture.
pub const OFF_PICTURE: u16 = 65_534;
/// The answer to a byte that is no move.
pub const UNKNOWN_MOVE: u16 = 65_533;

/// What [`cameras`](crate::cameras) leaves where a pixel is not answered yet. No filter answers so.
pub const NOT_ANSWERED: u16 = 65_533;

/// The level at a place of a value plane or of a filtered one; none where there is no reading.
///
/// ```
/// use icemedian::{reading, NO_READING};
///
/// assert_eq!(reading(7), Some(7));
/// assert_eq!(reading(NO_READING), None);
/// ```
pub fn reading(number: u16) -> Option<u16> {
    (number != NO_READING).then_some(number)
}

/// What a walk answers to its start or to a move byte.
#[derive(Clone, Copy, Debug, PartialEq, Eq)]
pub enum Answer {
    /// The level at the pixel.
    Level(u16),
    /// The window at the pixel has no reading.
    NoReading,
    /// The move would leave the picture, and is not made.
    OffPicture,
    /// The byte is no move.
    UnknownMove,
}

impl Answer {
    /// What a number of the answer buffer says.
    ///
    /// ```
    /// use icemedian::{Answer, NO_READING, OFF_PICTURE, UNKNOWN_MOVE};
    ///
    /// let answers = [7, NO_READING, OFF_PICTURE, UNKNOWN_MOVE].map(Answer::of);
    /// assert_eq!(answers, [Answer::Level(7), Answer::NoReading, Answer::OffPicture, Answer::UnknownMove]);
    /// ```
    pub fn of(number: u16) -> Answer {
        match number {
            NO_READING => Answer::NoReading,
            OFF_PICTURE => Answer::OffPicture,
            UNKNOWN_MOVE => Answer::UnknownMove,
            level => Answer::Level(level),
        }
    }

    /// The level, if it is one.
    pub fn level(self) -> Option<u16> {
        match self {
            Answer::Level(level) => Some(level),
            Answer::NoReading | Answer::OffPicture | Answer::UnknownMove => None,
        }
    }
}
