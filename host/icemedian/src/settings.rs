//! Settings of a frame, and ways of counting.

use crate::raw::Header;
use crate::{write_into, Refusal};

/// How a window's pixels are weighed: document 01's kind, and what belongs to it.
#[derive(Clone, Copy, Debug, PartialEq, Eq)]
pub enum Weights {
    /// Kind 1: by a table of the two pixels' guides, whose weights may be any 16-bit numbers, or by the built-in
    /// weights. A window whose readings all weigh nothing, which only a table of the file's own can leave, is
    /// answered and balanced as if each weighed 1.
    Table,
    /// Kind 2: by equation 22 of source 000, with smoothing 1 to 65,025 added to the guide's variance.
    Guided { smoothing: u16 },
}

impl Weights {
    /// Document 01's number of the kind.
    pub fn kind(self) -> u8 {
        match self {
            Weights::Table => 1,
            Weights::Guided { .. } => 2,
        }
    }

    /// What the trailer has as smoothing: 0 in kind 1.
    pub fn smoothing(self) -> u16 {
        match self {
            Weights::Table => 0,
            Weights::Guided { smoothing } => smoothing,
        }
    }
}

impl Default for Weights {
    fn default() -> Weights {
        Weights::Guided { smoothing: Settings::SMOOTHING }
    }
}

/// What a frame's trailer says.
///
/// ```
/// use icemedian::{Settings, Weights};
///
/// let settings = Settings { width: 640, height: 400, levels: 256, guides: 256, ..Settings::default() };
/// assert_eq!((settings.radius, settings.weights), (7, Weights::Guided { smoothing: 64 }));
/// ```
#[derive(Clone, Copy, Debug, PartialEq, Eq)]
pub struct Settings {
    pub width: u16,
    pub height: u16,
    /// Level count: levels run from 0 to one below it.
    pub levels: u16,
    /// Guide count: guides run from 0 to one below it.
    pub guides: u16,
    pub weights: Weights,
    pub radius: u8,
}

impl Settings {
    /// A new record's radius.
    pub const RADIUS: u8 = 7;
    /// A new record's smoothing.
    pub const SMOOTHING: u16 = 64;

    /// Pixels in a plane.
    pub fn pixels(&self) -> usize {
        usize::from(self.width) * usize::from(self.height)
    }

    /// Weights in a table that is not built in.
    pub fn table_weights(&self) -> usize {
        usize::from(self.guides) * usize::from(self.guides)
    }

    /// Checks 2 to 5: whether a frame can have these settings.
    ///
    /// ```
    /// use icemedian::{Refusal, Settings};
    ///
    /// let settings = Settings { width: 640, height: 400, levels: 256, guides: 256, ..Settings::default() };
    /// assert_eq!(settings.check(), Ok(()));
    /// assert_eq!(Settings { height: 480, ..settings }.check(), Err(Refusal::Size));
    /// ```
    pub fn check(&self) -> Result<(), Refusal> {
        // The writer makes these checks first; then it misses the planes, which no frame has empty.
        match write_into(self, &[], &[], &[], &mut []) {
            Err(Refusal::Length { .. }) => Ok(()),
            other => other.map(drop),
        }
    }

    /// How many counts and words way 1 needs.
    pub(crate) fn joint_room(&self) -> (usize, usize) {
        let (levels, guides) = (usize::from(self.levels), usize::from(self.guides));
        (levels * guides, levels * guides.div_ceil(64))
    }

    /// The settings as the C interface takes them.
    pub(crate) fn header(&self) -> Header {
        Header {
            width: self.width.into(),
            height: self.height.into(),
            levels: self.levels.into(),
            guides: self.guides.into(),
            kind: self.weights.kind().into(),
            radius: self.radius.into(),
            smoothing: self.weights.smoothing().into(),
        }
    }

    /// The settings in a file's last 28 bytes, which checks 1 to 5 accept.
    pub(crate) fn of_trailer(file: &[u8]) -> Settings {
        let trailer = &file[file.len() - 28..];
        let number = |place: usize| u16::from_be_bytes([trailer[place], trailer[place + 1]]);
        Settings {
            width: number(0),
            height: number(2),
            levels: number(4),
            guides: number(6),
            weights: if trailer[8] == 1 { Weights::Table } else { Weights::Guided { smoothing: number(10) } },
            radius: trailer[9],
        }
    }
}

impl Default for Settings {
    fn default() -> Settings {
        Settings { width: 0, height: 0, levels: 0, guides: 0, weights: Weights::default(), radius: Settings::RADIUS }
    }
}

/// How a window's pixels are counted. All ways give the same answers. [`Way::Joint`], [`Way::Columns`] and
/// [`Way::Chain`] give the same shift count too; [`Way::Coarse`] has a count of its own.
#[derive(Clone, Copy, Debug, PartialEq, Eq)]
pub enum Way {
    /// A joint histogram of levels and guides; serves both kinds.
    Joint = 1,
    /// A histogram per column; serves kind 2.
    Columns = 2,
    /// A chain of the window's levels; serves kind 2.
    Chain = 3,
    /// The joint histogram searched by blocks of 16 levels, for many levels; serves both kinds. A window with
    /// answer m adds m / 16 (rounded down) plus m mod 16 to the shift count, but m where the weight formula is
    /// negative for guide 0 or for the last guide.
    Coarse = 4,
}

impl Way {
    /// Whether the way serves frames with such weights.
    pub fn serves(self, weights: Weights) -> bool {
        matches!(self, Way::Joint | Way::Coarse) || weights != Weights::Table
    }
}
