//! The stores of the ways, and how much room each needs.

use crate::raw::Lent;
use crate::{Refusal, Settings, Way};

/// The stores that a call counts in. One record may serve many calls; it grows as needed. No dead pixel is counted.
#[derive(Clone, Debug, Default, PartialEq, Eq)]
pub struct Stores {
    /// Ways 1 and 4: pixels per level and guide.
    pub counts: Vec<u16>,
    /// Ways 1 and 4: occupied guides per level, 64 to a word.
    pub words: Vec<u64>,
    /// Ways 2 and 3.
    pub numbers: Vec<u32>,
    /// Way 4: the sum of weights of each block of 16 levels, of which the last may be short. Where no pixel of the
    /// window weighs anything, each counts 1.
    pub summary: Vec<i64>,
}

impl Stores {
    /// Stores long enough for a way on frames with these settings. Refused as by checks 2 to 5 if no frame
    /// can have them, and with [`Refusal::Way`] if the way does not serve such frames.
    ///
    /// ```
    /// use icemedian::{Refusal, Settings, Stores, Way, Weights};
    ///
    /// let settings = Settings { width: 640, height: 400, levels: 256, guides: 256, ..Settings::default() };
    /// let stores = Stores::fitting(Way::Columns, &settings)?;
    /// assert_eq!(stores.numbers.len(), 2 * 641 * 256);
    /// assert_eq!(Stores::fitting(Way::Coarse, &settings)?.summary.len(), 256 / 16);
    /// let endless = Settings { levels: 65_535, ..settings };
    /// assert_eq!(Stores::fitting(Way::Columns, &endless), Err(Refusal::Counts));
    /// let table = Settings { weights: Weights::Table, ..settings };
    /// assert_eq!(Stores::fitting(Way::Columns, &table), Err(Refusal::Way));
    /// # Ok::<(), Refusal>(())
    /// ```
    pub fn fitting(way: Way, settings: &Settings) -> Result<Stores, Refusal> {
        let mut stores = Stores::default();
        stores.fit(way, settings)?;
        Ok(stores)
    }

    /// Makes the way's stores at least as long as needed; refused as [`Stores::fitting`] is, with the
    /// stores as they were.
    pub fn fit(&mut self, way: Way, settings: &Settings) -> Result<(), Refusal> {
        settings.check()?;
        if !way.serves(settings.weights) {
            return Err(Refusal::Way);
        }
        let levels = usize::from(settings.levels);
        let side = 2 * usize::from(settings.radius) + 1;
        match way {
            Way::Joint | Way::Coarse => {
                let (counts, words) = settings.joint_room();
                lengthen(&mut self.counts, counts);
                lengthen(&mut self.words, words);
                if way == Way::Coarse {
                    lengthen(&mut self.summary, levels.div_ceil(16));
                }
            }
            Way::Columns => lengthen(&mut self.numbers, 2 * (usize::from(settings.width) + 1) * levels),
            Way::Chain => lengthen(&mut self.numbers, 1 + 4 * side * side),
        }
        Ok(())
    }

    /// Makes counts and words at least as long as the parts of all these frames together, for
    /// [`cameras_into`](crate::cameras_into); refused as [`Stores::fitting`] is, with the stores as they were.
    pub fn fit_cameras(&mut self, cameras: &[Settings]) -> Result<(), Refusal> {
        cameras.iter().try_for_each(Settings::check)?;
        let rooms = || cameras.iter().map(Settings::joint_room);
        lengthen(&mut self.counts, rooms().map(|(counts, _)| counts).sum());
        lengthen(&mut self.words, rooms().map(|(_, words)| words).sum());
        Ok(())
    }

    /// The stores with an answer buffer, for one call.
    pub(crate) fn lent<'a>(&'a mut self, answers: &'a mut [u16]) -> Lent<'a> {
        Lent {
            counts: &mut self.counts,
            words: &mut self.words,
            numbers: &mut self.numbers,
            summary: &mut self.summary,
            answers,
        }
    }
}

fn lengthen<T: Clone + Default>(store: &mut Vec<T>, needed: usize) {
    if store.len() < needed {
        store.resize(needed, T::default());
    }
}
