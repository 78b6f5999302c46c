//! A frame whose levels are known within a tolerance.

use crate::{check, raw, reading, Refusal, Settings, Stores, Way};

/// A frame of kind 1 filtered for levels that are known within a tolerance. Whatever the true levels are between the
/// file's and the upper ones, the filter's answer lies between `least` and `greatest`, and both can happen.
#[derive(Clone, Debug, PartialEq, Eq)]
pub struct Tolerance {
    pub settings: Settings,
    /// The least answer of each pixel, row by row from the top left, or [`NO_READING`](crate::NO_READING) where its
    /// window has no reading: what [`Way::Joint`] answers for the file's levels.
    pub least: Vec<u16>,
    /// The greatest answer of each pixel: what it answers for the upper levels.
    pub greatest: Vec<u16>,
    /// How far the cut point travelled for the file's levels, and for the upper ones.
    pub least_shifts: u64,
    pub greatest_shifts: u64,
}

impl Tolerance {
    /// The least and the greatest level of each pixel in turn, none where its window has no reading.
    pub fn readings(&self) -> impl ExactSizeIterator<Item = Option<(u16, u16)>> + '_ {
        self.least.iter().zip(&self.greatest).map(|(&least, &greatest)| reading(least).zip(reading(greatest)))
    }
}

/// Filters a frame whose levels are known within a tolerance, making the buffers that the call needs. The file has the
/// lower levels; `upper` has a number for each pixel, row by row from the top left, not below the file's, and
/// [`NO_READING`](crate::NO_READING) exactly where the file has it. Kind 2 is refused with [`Refusal::Way`].
///
/// ```
/// use icemedian::{tolerance, write, Refusal, Settings, Weights};
///
/// let settings = Settings { width: 5, height: 1, levels: 8, guides: 4, weights: Weights::Table, radius: 1 };
/// let file = write(&settings, &[5, 1, 3, 2, 7], &[0, 0, 2, 1, 3], &[])?;
/// let bounds = tolerance(&file, &[6, 1, 5, 4, 7])?;
/// assert_eq!(bounds.least, [1, 3, 2, 3, 7]);
/// assert_eq!(bounds.greatest, [1, 5, 4, 5, 7]);
/// assert_eq!((bounds.least_shifts, bounds.greatest_shifts), (9, 9));
/// let refusal = tolerance(&file, &[6, 1, 5, 1, 7]).unwrap_err();
/// assert_eq!(refusal, Refusal::UpperLevel { pixel: 3, reading: 2, upper: 1 });
/// assert_eq!(refusal.to_string(), "refused 13: the reading of pixel 3 is 2, above its upper level 1");
/// # Ok::<(), Refusal>(())
/// ```
///
/// A dead pixel has neither a reading nor an upper level:
///
/// ```
/// use icemedian::{tolerance, write, Settings, Weights, NO_READING};
///
/// let settings = Settings { width: 4, height: 1, levels: 8, guides: 2, weights: Weights::Table, radius: 1 };
/// let file = write(&settings, &[NO_READING, NO_READING, NO_READING, 5], &[0; 4], &[])?;
/// let bounds = tolerance(&file, &[NO_READING, NO_READING, NO_READING, 7])?;
/// assert_eq!(bounds.readings().collect::<Vec<_>>(), [None, None, Some((5, 7)), Some((5, 7))]);
/// # Ok::<(), icemedian::Refusal>(())
/// ```
pub fn tolerance(file: &[u8], upper: &[u16]) -> Result<Tolerance, Refusal> {
    let settings = check(file)?;
    let mut stores = Stores::fitting(Way::Joint, &settings)?;
    let (mut least, mut greatest) = (vec![0; settings.pixels()], vec![0; settings.pixels()]);
    let (least_shifts, greatest_shifts) = tolerance_into(file, upper, &mut stores, &mut least, &mut greatest)?;
    Ok(Tolerance { settings, least, greatest, least_shifts, greatest_shifts })
}

/// The same in lent buffers; returns the shift counts of the least and of the greatest. The stores are [`Way::Joint`]'s
/// and hold the last window of the upper levels afterwards; each output needs a number for each pixel.
///
/// ```
/// use icemedian::{tolerance_into, write, Refusal, Settings, Stores, Way, Weights};
///
/// let settings = Settings { width: 2, height: 1, levels: 8, guides: 2, weights: Weights::Table, radius: 0 };
/// let file = write(&settings, &[2, 6], &[0, 0], &[])?;
/// let mut stores = Stores::fitting(Way::Joint, &settings)?;
/// let (mut least, mut greatest) = ([0; 2], [0; 2]);
/// assert_eq!(tolerance_into(&file, &[3, 7], &mut stores, &mut least, &mut greatest), Ok((6, 7)));
/// assert_eq!((least, greatest), ([2, 6], [3, 7]));
/// // The last window has its upper level alone.
/// assert_eq!((stores.counts[6 * 2], stores.counts[7 * 2]), (0, 1));
/// let short = tolerance_into(&file, &[3, 7], &mut stores, &mut least, &mut greatest[1..]);
/// assert_eq!(short, Err(Refusal::Room));
/// # Ok::<(), Refusal>(())
/// ```
pub fn tolerance_into(
    file: &[u8],
    upper: &[u16],
    stores: &mut Stores,
    least: &mut [u16],
    greatest: &mut [u16],
) -> Result<(u64, u64), Refusal> {
    let (mut least_shifts, mut greatest_shifts, mut offset) = (0, 0, 0);
    let lent = raw::LentTwo { counts: &mut stores.counts, words: &mut stores.words, least, greatest };
    let status = raw::tolerance(file, upper, lent, &mut least_shifts, &mut greatest_shifts, &mut offset);
    Refusal::of_tolerance(status, offset, file, upper)?;
    Ok((least_shifts, greatest_shifts))
}
