//! Several cameras that share one processor: up to eight files filtered by turns, within the limits of control periods.

use crate::{raw, Refusal, Settings, Stores, NOT_ANSWERED};

/// Files end to end in one buffer, and the length of each, as [`cameras`] takes them.
///
/// ```
/// use icemedian::end_to_end;
///
/// assert_eq!(end_to_end(&[vec![1, 2], vec![], vec![3]]), (vec![1, 2, 3], vec![2, 0, 1]));
/// ```
pub fn end_to_end<File: AsRef<[u8]>>(files: &[File]) -> (Vec<u8>, Vec<usize>) {
    let bytes = || files.iter().map(AsRef::as_ref);
    (bytes().flatten().copied().collect(), bytes().map(<[u8]>::len).collect())
}

/// The files of a buffer, as far as the lengths lie within it.
pub(crate) fn files_of<'a>(mut files: &'a [u8], lengths: &'a [usize]) -> impl Iterator<Item = &'a [u8]> {
    lengths.iter().map_while(move |&length| {
        let (file, rest) = files.split_at_checked(length)?;
        files = rest;
        Some(file)
    })
}

/// What a call over several files leaves.
#[derive(Clone, Debug, PartialEq, Eq)]
pub struct Cameras {
    /// How many pixels were answered in all.
    pub grants: u64,
    settings: Vec<Settings>,
    stores: Stores,
    answers: Vec<u16>,
}

/// One file's parts of what the call leaves.
#[derive(Clone, Copy, Debug, PartialEq, Eq)]
pub struct Camera<'a> {
    pub settings: Settings,
    /// A number for each pixel in the order of the filter's walk, row 0 rightward, row 1 leftward and so on: a level,
    /// [`NO_READING`](crate::NO_READING), or [`NOT_ANSWERED`].
    pub answers: &'a [u16],
    /// Pixels per level and guide of the last answer's window; zeros before the first answer.
    pub counts: &'a [u16],
    /// Occupied guides per level of that window, 64 to a word; zeros before the first answer.
    pub words: &'a [u64],
}

impl Cameras {
    /// How many files there are.
    pub fn len(&self) -> usize {
        self.settings.len()
    }

    /// Whether there is no file.
    pub fn is_empty(&self) -> bool {
        self.settings.is_empty()
    }

    /// The parts of a file, by its number from 0.
    ///
    /// # Panics
    ///
    /// Where there are not so many files.
    pub fn camera(&self, number: usize) -> Camera<'_> {
        let settings = self.settings[number];
        let (before, (counts, words)) = (&self.settings[..number], settings.joint_room());
        let start = |room: fn(&Settings) -> usize| before.iter().map(room).sum::<usize>();
        Camera {
            settings,
            answers: &self.answers[start(Settings::pixels)..][..settings.pixels()],
            counts: &self.stores.counts[start(|settings| settings.joint_room().0)..][..counts],
            words: &self.stores.words[start(|settings| settings.joint_room().1)..][..words],
        }
    }

    /// The parts of all files, in turn.
    pub fn iter(&self) -> impl ExactSizeIterator<Item = Camera<'_>> {
        (0..self.len()).map(|number| self.camera(number))
    }
}

impl<'a> Camera<'a> {
    /// The answers so far, in the order of the filter's walk.
    pub fn answered(&self) -> &'a [u16] {
        let unanswered = self.answers.iter().position(|&answer| answer == NOT_ANSWERED);
        &self.answers[..unanswered.unwrap_or(self.answers.len())]
    }

    /// Whether every pixel is answered.
    pub fn is_finished(&self) -> bool {
        self.answered().len() == self.answers.len()
    }

    /// The answers row by row from the top left, none where a pixel is not answered yet. An answer may be
    /// [`NO_READING`](crate::NO_READING).
    pub fn plane(&self) -> Vec<Option<u16>> {
        let mut plane: Vec<_> = self.answers.iter().map(|&answer| (answer != NOT_ANSWERED).then_some(answer)).collect();
        plane.chunks_mut(self.settings.width.into()).skip(1).step_by(2).for_each(<[_]>::reverse);
        plane
    }
}

/// Filters up to eight files by turns, making the buffers that the call needs. The files lie end to end, as
/// [`end_to_end`] puts them, and each period has a limit of 0 to 4,096 grants. A grant answers one pixel of the next file
/// that is not finished, by rising number and round again; the next period goes on where the last one stopped. A refusal
/// from 1 to 7 is that of the first file that [`check`](crate::check) refuses.
///
/// ```
/// use icemedian::{cameras, end_to_end, write, BatchFault, Refusal, Settings, Weights};
///
/// let settings = Settings { width: 3, height: 1, levels: 8, guides: 4, weights: Weights::Table, radius: 1 };
/// let files = [[5, 1, 3], [2, 7, 4], [0, 6, 6]].map(|values| write(&settings, &values, &[0; 3], &[]));
/// let (files, lengths) = end_to_end(&files.into_iter().collect::<Result<Vec<_>, _>>()?);
/// let halted = cameras(&files, &lengths, &[4, 0, 1])?;
/// assert_eq!(halted.grants, 5);
/// let answered: Vec<&[u16]> = halted.iter().map(|camera| camera.answered()).collect();
/// assert_eq!(answered, [[1, 3].as_slice(), &[2, 4], &[0]]);
/// assert!(!halted.camera(2).is_finished());
///
/// let refusal = cameras(&files, &lengths, &[4, 4_097]).unwrap_err();
/// let fault = BatchFault::Limit { period: 1, limit: 4_097 };
/// assert_eq!((refusal, refusal.number()), (Refusal::Batch { fault }, 15));
/// assert_eq!(refusal.to_string(), "refused 15: the limit of period 1 is 4097, and must be at most 4096");
/// # Ok::<(), Refusal>(())
/// ```
pub fn cameras(files: &[u8], lengths: &[usize], limits: &[u32]) -> Result<Cameras, Refusal> {
    let mut stores = Stores::default();
    // Without buffers the call makes all its checks up to 11, which then fires unless there is no file.
    match cameras_into(files, lengths, limits, &mut stores, &mut []) {
        Ok(_) | Err(Refusal::Room) => {}
        Err(refusal) => return Err(refusal),
    }
    let settings: Vec<Settings> = files_of(files, lengths).map(Settings::of_trailer).collect();
    stores.fit_cameras(&settings)?;
    let mut answers = vec![NOT_ANSWERED; settings.iter().map(Settings::pixels).sum()];
    let grants = cameras_into(files, lengths, limits, &mut stores, &mut answers)?;
    Ok(Cameras { grants, settings, stores, answers })
}

/// The same in lent buffers; returns how many grants were made. The files' parts lie end to end, and what is not answered
/// yet stays as it was lent. [`Stores::fit_cameras`] makes stores long enough; the answers need a number for each pixel
/// of all files.
///
/// ```
/// use icemedian::{cameras_into, end_to_end, write, Refusal, Settings, Stores, Weights};
///
/// let settings = Settings { width: 2, height: 1, levels: 8, guides: 2, weights: Weights::Table, radius: 0 };
/// let (files, lengths) = end_to_end(&[write(&settings, &[2, 6], &[0, 1], &[])?, write(&settings, &[3, 7], &[0; 2], &[])?]);
/// let (mut stores, mut answers) = (Stores::default(), [9; 4]);
/// stores.fit_cameras(&[settings; 2])?;
/// assert_eq!(cameras_into(&files, &lengths, &[2, 1], &mut stores, &mut answers), Ok(3));
/// assert_eq!(answers, [2, 6, 3, 9]);
/// // The first file's second pixel and the second one's first, whose counts begin behind 8 levels of 2 guides.
/// assert_eq!((stores.counts[6 * 2 + 1], stores.counts[16 + 3 * 2]), (1, 1));
/// let short = cameras_into(&files, &lengths, &[2, 1], &mut stores, &mut answers[1..]);
/// assert_eq!(short, Err(Refusal::Room));
/// # Ok::<(), Refusal>(())
/// ```
pub fn cameras_into(
    files: &[u8],
    lengths: &[usize],
    limits: &[u32],
    stores: &mut Stores,
    answers: &mut [u16],
) -> Result<u64, Refusal> {
    let (mut grants, mut offset) = (0, 0);
    let lent = raw::LentParts { counts: &mut stores.counts, words: &mut stores.words, answers };
    let status = raw::cameras(files, lengths, limits, lent, &mut grants, &mut offset);
    Refusal::of_cameras(status, offset, files, lengths, limits)?;
    Ok(grants)
}
