//! Levels known within a tolerance: request 7 of document 02. The file's values are the lower levels, a second plane has
//! the upper ones, and both are filtered.

use crate::frame::{open, Frame, Settings, KIND_TABLE, NO_READING};
use crate::refusal::{check, Refusal};
use crate::store::{stores, Lengths as StoreLengths, Stores, Way};
use crate::walk;

/// How long each buffer of the call is, or must at least be.
#[derive(Clone, Copy, Debug, PartialEq, Eq)]
pub struct Lengths {
    pub counts: usize,
    pub words: usize,
    pub least: usize,
    pub greatest: usize,
}

impl Lengths {
    /// Way 1's stores and two planes.
    pub fn needed(settings: &Settings) -> Lengths {
        let StoreLengths { counts, words, .. } = StoreLengths::of_stores(Way::Joint, settings);
        Lengths { counts, words, least: settings.pixels(), greatest: settings.pixels() }
    }

    /// Whether every buffer is at least as long as `needed`.
    pub fn suffice(&self, needed: &Lengths) -> bool {
        self.counts >= needed.counts
            && self.words >= needed.words
            && self.least >= needed.least
            && self.greatest >= needed.greatest
    }
}

/// What the call leaves.
#[derive(Clone, Debug, PartialEq, Eq)]
pub struct Tolerated {
    pub least: Vec<u16>,
    pub greatest: Vec<u16>,
    pub least_shifts: u64,
    pub greatest_shifts: u64,
    /// Of way 1, as the upper plane's filter leaves them.
    pub stores: Stores,
    /// What the lower plane's filter alone would leave; no call gives this away.
    pub lower_stores: Stores,
    /// How many windows are hollow and how many are empty, which is the same for both planes; nor this.
    pub hollow: usize,
    pub empty: usize,
}

impl Frame {
    /// The frame with another value plane.
    pub fn with_values(&self, values: &[u16]) -> Frame {
        Frame { values: values.to_vec(), ..self.clone() }
    }

    /// What check 13 asks of a pixel: no reading in both planes, or a level in both, the upper not below the lower.
    pub fn spans(&self, reading: u16, upper: u16) -> bool {
        if reading == NO_READING || upper == NO_READING {
            return reading == upper;
        }
        reading <= upper && upper < self.settings.levels
    }

    /// Check 13 passes: an upper number for each pixel, and each goes with its reading.
    pub fn allows(&self, upper: &[u16]) -> bool {
        let mut pairs = self.values.iter().zip(upper);
        upper.len() == self.settings.pixels() && pairs.all(|(&reading, &upper)| self.spans(reading, upper))
    }
}

/// The call with buffers of the lengths `lent`: checks 1 to 8, 13 and 11, in this order.
pub fn tolerance(file: &[u8], upper: &[u16], lent: &Lengths) -> Result<Tolerated, Refusal> {
    let frame = open(file)?;
    check(8, frame.settings.kind != KIND_TABLE)?;
    check(13, !frame.allows(upper))?;
    check(11, !lent.suffice(&Lengths::needed(&frame.settings)))?;
    Ok(both(&frame, upper))
}

/// Both planes filtered, the upper last.
pub fn both(frame: &Frame, upper: &[u16]) -> Tolerated {
    let (least, lower_walk) = walk::filter(frame);
    let raised = frame.with_values(upper);
    let (greatest, upper_walk) = walk::filter(&raised);
    let count = |windows: &[bool]| windows.iter().filter(|&&window| window).count();
    Tolerated {
        least,
        greatest,
        least_shifts: lower_walk.shifts,
        greatest_shifts: upper_walk.shifts,
        stores: stores(&raised, Way::Joint, &upper_walk),
        lower_stores: stores(frame, Way::Joint, &lower_walk),
        hollow: count(&upper_walk.hollow),
        empty: count(&upper_walk.empty),
    }
}
