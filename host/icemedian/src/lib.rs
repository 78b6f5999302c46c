//! Weighted median filter for thermal frames of ice sheets, proved against document 01.
//!
//! A frame is a file: a plane of levels, a plane of guides, perhaps a table of weights, and a trailer.
//! Every call is handed the file's bytes, checks them entirely, and refuses with the first of
//! document 01's checks that fires.
//!
//! ```
//! use icemedian::{filter, write, Settings, Way, Weights};
//!
//! let weights = Weights::Guided { smoothing: 1 };
//! let settings = Settings { width: 3, height: 1, levels: 8, guides: 4, weights, radius: 1 };
//! let file = write(&settings, &[5, 1, 3], &[0, 0, 2], &[])?;
//! let filtered = filter(&file, Way::Columns)?;
//! assert_eq!(filtered.levels, [1, 3, 3]);
//! assert_eq!(filtered.shifts, 3);
//! # Ok::<(), icemedian::Refusal>(())
//! ```
//!
//! A value of [`NO_READING`] is a dead pixel of the camera: it belongs to no window, and gets the level of the readings
//! around it. [`Filtered::readings`], [`reading`] and [`Answer`] look at numbers so that a level is never confused with
//! what is none:
//!
//! ```
//! use icemedian::{filter, write, Settings, Way, Weights, NO_READING};
//!
//! let settings = Settings { width: 4, height: 1, levels: 8, guides: 2, weights: Weights::Table, radius: 1 };
//! let file = write(&settings, &[NO_READING, NO_READING, NO_READING, 5], &[0; 4], &[])?;
//! let filtered = filter(&file, Way::Joint)?;
//! assert_eq!(filtered.readings().collect::<Vec<_>>(), [None, None, Some(5), Some(5)]);
//! # Ok::<(), icemedian::Refusal>(())
//! ```
//!
//! Where levels are known within a tolerance, [`tolerance`] gives the least and the greatest answer of each pixel.
//!
//! For an archive, [`split`] moves the high bytes of a frame's values before their low bytes, and [`join`] gives the
//! very file back.
//!
//! Where a hall has several sheets, [`cameras`] filters up to eight files by turns, within the limits of control periods.
//! Here a period of three grants answers two pixels of the first sheet and one of the second, and two more the rest:
//!
//! ```
//! use icemedian::{cameras, end_to_end, write, Settings, Weights};
//!
//! let settings = Settings { width: 2, height: 2, levels: 8, guides: 2, weights: Weights::Table, radius: 0 };
//! let north = write(&settings, &[1, 2, 3, 4], &[0; 4], &[])?;
//! let south = write(&Settings { height: 1, ..settings }, &[5, 6], &[0; 2], &[])?;
//! let (files, lengths) = end_to_end(&[north, south]);
//!
//! let halted = cameras(&files, &lengths, &[3])?;
//! assert_eq!(halted.camera(0).answered(), [1, 2]);
//! assert_eq!(halted.camera(0).plane(), [Some(1), Some(2), None, None]);
//! assert_eq!(halted.camera(1).plane(), [Some(5), None]);
//!
//! let finished = cameras(&files, &lengths, &[3, 0, 4096])?;
//! assert_eq!(finished.grants, 6);
//! // Answers come in the order of the walk: row 0 rightward, row 1 leftward.
//! assert_eq!(finished.camera(0).answers, [1, 2, 4, 3]);
//! assert_eq!(finished.camera(0).plane(), [1, 2, 3, 4].map(Some));
//! # Ok::<(), icemedian::Refusal>(())
//! ```
//!
//! A refusal says its number and its reason:
//!
//! ```
//! use icemedian::{check, Refusal};
//!
//! let refusal = check(b"not a frame").unwrap_err();
//! assert_eq!(refusal, Refusal::Trailer);
//! assert!(refusal.to_string().starts_with("refused 1: "));
//! ```

mod byte_planes;
mod cameras;
mod explanation;
pub mod raw;
mod reading;
mod refusal;
mod settings;
mod stores;
mod tolerance;

pub use byte_planes::{join, join_into, split, split_into};
pub use cameras::{cameras, cameras_into, end_to_end, Camera, Cameras};
pub use explanation::{Cause, Explanation};
pub use reading::{reading, Answer, NOT_ANSWERED, NO_READING, OFF_PICTURE, UNKNOWN_MOVE};
pub use refusal::{BatchFault, Part, Refusal};
pub use settings::{Settings, Way, Weights};
pub use stores::Stores;
pub use tolerance::{tolerance, tolerance_into, Tolerance};

/// Move bytes.
pub const RIGHT: u8 = 0;
pub const LEFT: u8 = 1;
pub const DOWN: u8 = 2;
pub const UP: u8 = 3;

/// A filtered frame.
#[derive(Clone, Debug, PartialEq, Eq)]
pub struct Filtered {
    pub settings: Settings,
    /// A level for each pixel, row by row from the top left, or [`NO_READING`] where its window has none.
    pub levels: Vec<u16>,
    /// How far the cut point travelled, in levels; for [`Way::Coarse`] its own count. A window without a reading adds
    /// nothing.
    pub shifts: u64,
}

impl Filtered {
    /// The levels in turn, none where the pixel's window has no reading.
    pub fn readings(&self) -> impl ExactSizeIterator<Item = Option<u16>> + '_ {
        self.levels.iter().map(|&level| reading(level))
    }
}

/// A walk to its end.
#[derive(Clone, Debug, PartialEq, Eq)]
pub struct Walked {
    /// One answer for the start and one for each move byte: a level, [`NO_READING`], [`OFF_PICTURE`] or
    /// [`UNKNOWN_MOVE`].
    pub answers: Vec<u16>,
    pub end: WalkEnd,
    /// The way's stores, which hold the readings of the last window; the others are empty.
    pub stores: Stores,
}

impl Walked {
    /// What the answers say, in turn.
    ///
    /// ```
    /// use icemedian::{walk, write, Answer, Settings, Way, Weights, NO_READING, RIGHT, UP};
    ///
    /// let settings = Settings { width: 2, height: 1, levels: 8, guides: 2, weights: Weights::Table, radius: 0 };
    /// let file = write(&settings, &[5, NO_READING], &[0; 2], &[])?;
    /// let walked = walk(&file, Way::Joint, (0, 0), &[RIGHT, UP])?;
    /// assert!(walked.read().eq([Answer::Level(5), Answer::NoReading, Answer::OffPicture]));
    /// // A window without a reading keeps the cut point.
    /// assert_eq!((walked.end.shifts, walked.end.cut), (5, 5));
    /// # Ok::<(), icemedian::Refusal>(())
    /// ```
    pub fn read(&self) -> impl ExactSizeIterator<Item = Answer> + '_ {
        self.answers.iter().map(|&number| Answer::of(number))
    }
}

/// What a walk says beside its answers and stores.
#[derive(Clone, Debug, PartialEq, Eq)]
pub struct WalkEnd {
    /// How far the cut point travelled, in levels; for [`Way::Coarse`] its own count.
    pub shifts: u64,
    /// The cut point after the last window that has a reading; 0 where none has.
    pub cut: u16,
    /// Way 1's balance at the cut, a cell for each guide; zeros for the other ways.
    pub balance_box: [i16; 256],
}

/// Checks 1 to 7: the settings of an accepted frame.
///
/// ```
/// use icemedian::{check, write, Refusal, Settings};
///
/// let settings = Settings { width: 2, height: 1, levels: 4, guides: 4, ..Settings::default() };
/// let mut file = write(&settings, &[3, 0], &[1, 2], &[])?;
/// assert_eq!(check(&file), Ok(settings));
/// file[3] = 4;
/// assert_eq!(check(&file), Err(Refusal::Contents { offset: 2 }));
/// # Ok::<(), Refusal>(())
/// ```
pub fn check(file: &[u8]) -> Result<Settings, Refusal> {
    let mut offset = 0;
    let status = raw::check(file, &mut offset);
    Refusal::of_reading(status, offset, file)?;
    Ok(Settings::of_trailer(file))
}

/// Filters a frame, making the buffers that the call needs. A window in which no pixel weighs anything is answered as
/// if each pixel weighed 1, here and in every call:
///
/// ```
/// use icemedian::{balance, filter, write, Settings, Way, Weights};
///
/// // A lamp's reflection, level 7, alone in its guide class, for which the table has no weight.
/// let settings = Settings { width: 3, height: 1, levels: 8, guides: 2, weights: Weights::Table, radius: 1 };
/// let file = write(&settings, &[2, 7, 4], &[0, 1, 0], &[1, 0, 0, 0])?;
/// assert_eq!(filter(&file, Way::Joint)?.levels, [2, 4, 4]);
/// assert_eq!(balance(&file, (1, 0), 4), Ok(2 * 2 - 3));
/// # Ok::<(), icemedian::Refusal>(())
/// ```
pub fn filter(file: &[u8], way: Way) -> Result<Filtered, Refusal> {
    let settings = check(file)?;
    let mut stores = Stores::fitting(way, &settings)?;
    let mut levels = vec![0; settings.pixels()];
    let shifts = filter_into(file, way, &mut stores, &mut levels)?;
    Ok(Filtered { settings, levels, shifts })
}

/// Filters a frame in lent buffers and returns the shift count. [`Stores::fit`] makes stores long
/// enough; the output needs a number for each pixel.
///
/// ```
/// use icemedian::{filter_into, write, Refusal, Settings, Stores, Way, Weights};
///
/// let settings = Settings { width: 2, height: 1, levels: 8, guides: 2, weights: Weights::Table, radius: 1 };
/// let file = write(&settings, &[2, 6], &[0, 0], &[1, 1, 1, 1])?;
/// let mut stores = Stores::fitting(Way::Joint, &settings)?;
/// let mut output = [0; 2];
/// assert_eq!(filter_into(&file, Way::Joint, &mut stores, &mut output), Ok(2));
/// assert_eq!(output, [2, 2]);
/// assert_eq!(filter_into(&file, Way::Chain, &mut stores, &mut output), Err(Refusal::Way));
/// assert_eq!(filter_into(&file, Way::Joint, &mut stores, &mut output[1..]), Err(Refusal::Room));
/// # Ok::<(), Refusal>(())
/// ```
pub fn filter_into(file: &[u8], way: Way, stores: &mut Stores, output: &mut [u16]) -> Result<u64, Refusal> {
    let (mut shifts, mut offset) = (0, 0);
    let status = raw::filter(file, way as u32, stores.lent(output), &mut shifts, &mut offset);
    Refusal::of_reading(status, offset, file)?;
    Ok(shifts)
}

/// Walks from a pixel along a list of moves, making the buffers that the call needs.
///
/// ```
/// use icemedian::{walk, write, Settings, Way, Weights, DOWN, LEFT, OFF_PICTURE, RIGHT};
///
/// let weights = Weights::Guided { smoothing: 1 };
/// let settings = Settings { width: 3, height: 1, levels: 8, guides: 4, weights, radius: 1 };
/// let file = write(&settings, &[5, 1, 3], &[0, 0, 2], &[])?;
/// let walked = walk(&file, Way::Joint, (0, 0), &[RIGHT, DOWN, RIGHT, LEFT])?;
/// assert_eq!(walked.answers, [1, 3, OFF_PICTURE, 3, 3]);
/// assert_eq!((walked.end.shifts, walked.end.cut), (3, 3));
/// // The last window has a pixel of level 3 and guide 2.
/// assert_eq!(walked.stores.counts[3 * 4 + 2], 1);
/// // Its pixels weigh 21, 21 and 9, all in the first block of 16 levels.
/// let coarse = walk(&file, Way::Coarse, (0, 0), &[RIGHT, DOWN, RIGHT, LEFT])?;
/// assert_eq!(coarse.answers, walked.answers);
/// assert_eq!((coarse.end.shifts, coarse.stores.summary), (10, vec![51]));
/// # Ok::<(), icemedian::Refusal>(())
/// ```
pub fn walk(file: &[u8], way: Way, start: (usize, usize), moves: &[u8]) -> Result<Walked, Refusal> {
    let mut stores = Stores::fitting(way, &check(file)?)?;
    let mut answers = vec![0; 1 + moves.len()];
    let end = walk_into(file, way, start, moves, &mut stores, &mut answers)?;
    Ok(Walked { answers, end, stores })
}

/// Walks in lent buffers. The way's stores hold the last window afterwards.
pub fn walk_into(
    file: &[u8],
    way: Way,
    start: (usize, usize),
    moves: &[u8],
    stores: &mut Stores,
    answers: &mut [u16],
) -> Result<WalkEnd, Refusal> {
    let mut end = WalkEnd { shifts: 0, cut: 0, balance_box: [0; 256] };
    let mut offset = 0;
    let status = raw::walk(file, way as u32, start, moves, stores.lent(answers), &mut end, &mut offset);
    Refusal::of_reading(status, offset, file)?;
    Ok(end)
}

/// The balance 2U(level) - T of the window at a pixel; 0 at every level where it has no reading.
///
/// ```
/// use icemedian::{balance, write, Refusal, Settings, Weights};
///
/// let weights = Weights::Guided { smoothing: 1 };
/// let settings = Settings { width: 5, height: 1, levels: 8, guides: 16, weights, radius: 2 };
/// let file = write(&settings, &[1, 2, 5, 3, 4], &[7, 7, 15, 7, 0], &[])?;
/// assert_eq!(balance(&file, (2, 0), 4), Ok(-1275));
/// assert_eq!(balance(&file, (2, 0), 8), Err(Refusal::Place));
/// # Ok::<(), Refusal>(())
/// ```
pub fn balance(file: &[u8], pixel: (usize, usize), level: u16) -> Result<i64, Refusal> {
    let (mut balance, mut offset) = (0, 0);
    let status = raw::balance(file, pixel, level.into(), &mut balance, &mut offset);
    Refusal::of_reading(status, offset, file)?;
    Ok(balance)
}

/// Why a pixel has its level.
///
/// ```
/// use icemedian::{explain, write, Cause, Explanation, Refusal, Settings, Weights};
///
/// let weights = Weights::Guided { smoothing: 1 };
/// let settings = Settings { width: 5, height: 1, levels: 8, guides: 16, weights, radius: 2 };
/// let file = write(&settings, &[1, 2, 5, 3, 4], &[7, 7, 15, 7, 0], &[])?;
/// let (level, cause) = (Some(2), Cause::Ordinary);
/// let ordinary = Explanation { pixels: 4, total: 832, level, below: 272, reached: 544, cause };
/// assert_eq!(explain(&file, (1, 0)), Ok(ordinary));
/// // The brightest pixel: one of guide 0 counts against its own level.
/// let bright = explain(&file, (2, 0))?;
/// assert_eq!((bright.level, bright.below, bright.reached, bright.total), (Some(3), 1100, 1650, 2945));
/// assert_eq!(bright.cause, Cause::NegativeAtZero);
/// // The darkest: one of guide 15 does.
/// assert_eq!(explain(&file, (4, 0))?.cause, Cause::NegativeAtLast);
/// assert_eq!(explain(&file, (5, 0)), Err(Refusal::Place));
/// # Ok::<(), Refusal>(())
/// ```
pub fn explain(file: &[u8], pixel: (usize, usize)) -> Result<Explanation, Refusal> {
    let (mut explained, mut offset) = (raw::Explained::default(), 0);
    let status = raw::explain(file, pixel, &mut explained, &mut offset);
    Refusal::of_reading(status, offset, file)?;
    Explanation::of(&explained)
}

/// The file of a frame. A value is a level or [`NO_READING`]. In kind 1 a table has a row of weights, 0 to 65,535 each,
/// for each guide of the centre, and an empty one means the built-in weights.
///
/// ```
/// use icemedian::{balance, filter, write, Refusal, Settings, Way, Weights};
///
/// let settings = Settings { width: 3, height: 1, levels: 8, guides: 2, weights: Weights::Table, radius: 1 };
/// let file = write(&settings, &[1, 5, 3], &[0, 1, 0], &[65_535, 257, 1, 65_535])?;
/// assert_eq!(filter(&file, Way::Joint)?.levels, [1, 5, 3]);
/// assert_eq!(balance(&file, (0, 0), 1), Ok(65_535 - 257));
/// # Ok::<(), Refusal>(())
/// ```
pub fn write(settings: &Settings, values: &[u16], guide: &[u16], table: &[u16]) -> Result<Vec<u8>, Refusal> {
    let mut file = vec![0; 2 * (values.len() + guide.len() + table.len()) + 28];
    let length = write_into(settings, values, guide, table, &mut file)?;
    file.truncate(length);
    Ok(file)
}

/// Writes a frame to the output's first bytes and returns the file's length.
///
/// ```
/// use icemedian::{write_into, Refusal, Settings};
///
/// let settings = Settings { width: 1, height: 1, levels: 4, guides: 4, ..Settings::default() };
/// assert_eq!(write_into(&settings, &[3], &[0], &[], &mut [0; 40]), Ok(32));
/// assert_eq!(write_into(&settings, &[3], &[0], &[], &mut [0; 31]), Err(Refusal::Room));
/// assert_eq!(write_into(&settings, &[3], &[4], &[], &mut [0; 40]), Err(Refusal::Contents { offset: 2 }));
/// // A value may be no reading, a guide not.
/// assert_eq!(write_into(&settings, &[65_535], &[0], &[], &mut [0; 40]), Ok(32));
/// assert_eq!(write_into(&settings, &[65_535], &[65_535], &[], &mut [0; 40]), Err(Refusal::Contents { offset: 2 }));
/// assert_eq!(write_into(&settings, &[65_534], &[0], &[], &mut [0; 40]), Err(Refusal::Contents { offset: 0 }));
/// ```
pub fn write_into(
    settings: &Settings,
    values: &[u16],
    guide: &[u16],
    table: &[u16],
    output: &mut [u8],
) -> Result<usize, Refusal> {
    let (mut length, mut offset) = (0, 0);
    let status = raw::write(&settings.header(), values, guide, table, output, &mut length, &mut offset);
    Refusal::of_status(status, offset, || Refusal::length(settings, values, guide, table))?;
    Ok(length)
}
