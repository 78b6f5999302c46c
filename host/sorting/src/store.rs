//! What the stores hold after a walk, for its last window, counted anew from the frame. No store holds a dead pixel.

use crate::frame::{Frame, Settings, KIND_GUIDED};
use crate::walk::Walk;
use crate::window::{reach, Window};

/// Cells of the balance box, whatever M is.
pub const BOX_CELLS: usize = 256;
/// Levels in a block of the coarse way; the last block may be short.
pub const BLOCK_LEVELS: u16 = 16;

/// A way of counting.
#[derive(Clone, Copy, Debug, PartialEq, Eq)]
pub enum Way {
    Joint,
    Columns,
    Chain,
    Coarse,
}

impl Way {
    /// All ways, by rising number.
    pub const ALL: [Way; 4] = [Way::Joint, Way::Columns, Way::Chain, Way::Coarse];

    /// The way of that number, if it serves the kind.
    pub fn serving(number: u32, kind: u8) -> Option<Way> {
        Way::ALL.into_iter().find(|way| way.number() == number && way.serves(kind))
    }

    /// The documents' number of the way.
    pub fn number(self) -> u32 {
        match self {
            Way::Joint => 1,
            Way::Columns => 2,
            Way::Chain => 3,
            Way::Coarse => 4,
        }
    }

    /// The name that the program prints.
    pub fn name(self) -> &'static str {
        match self {
            Way::Joint => "joint",
            Way::Columns => "columns",
            Way::Chain => "chain",
            Way::Coarse => "coarse",
        }
    }

    /// Whether the way serves a kind.
    pub fn serves(self, kind: u8) -> bool {
        matches!(self, Way::Joint | Way::Coarse) || kind == KIND_GUIDED
    }
}

/// How long each buffer of a call is, or must at least be.
#[derive(Clone, Copy, Debug, Default, PartialEq, Eq)]
pub struct Lengths {
    pub counts: usize,
    pub words: usize,
    pub numbers: usize,
    pub summary: usize,
    /// The answer buffer of a walk or the output plane of a filter.
    pub answers: usize,
}

impl Lengths {
    /// What a way needs of the stores; 0 where it uses none.
    pub fn of_stores(way: Way, settings: &Settings) -> Lengths {
        let levels = usize::from(settings.levels);
        let columns = usize::from(settings.width);
        let side = 2 * usize::from(settings.radius) + 1;
        let mut lengths = Lengths::default();
        match way {
            Way::Joint | Way::Coarse => {
                lengths.counts = levels * usize::from(settings.guides);
                lengths.words = levels * words_per_level(settings);
                lengths.summary = if way == Way::Coarse { blocks(settings) } else { 0 };
            }
            Way::Columns => lengths.numbers = 2 * columns * levels + 2 * levels,
            Way::Chain => lengths.numbers = 1 + 4 * side * side,
        }
        lengths
    }

    /// Whether every buffer is at least as long as `needed`.
    pub fn suffice(&self, needed: &Lengths) -> bool {
        self.counts >= needed.counts
            && self.words >= needed.words
            && self.numbers >= needed.numbers
            && self.summary >= needed.summary
            && self.answers >= needed.answers
    }
}

fn words_per_level(settings: &Settings) -> usize {
    usize::from(settings.guides).div_ceil(64)
}

fn blocks(settings: &Settings) -> usize {
    usize::from(settings.levels.div_ceil(BLOCK_LEVELS))
}

/// A level of the chain: its pixels in the window, and the sum of their guides.
#[derive(Clone, Copy, Debug, PartialEq, Eq)]
pub struct ChainEntry {
    pub level: u32,
    pub count: u32,
    pub guide_sum: u32,
}

/// The stores of one way.
#[derive(Clone, Debug, PartialEq, Eq)]
pub enum Stores {
    Joint {
        counts: Vec<u16>,
        words: Vec<u64>,
    },
    Columns {
        numbers: Vec<u32>,
    },
    /// Read from the first node; which node holds which level is free.
    Chain {
        entries: Vec<ChainEntry>,
    },
    Coarse {
        counts: Vec<u16>,
        words: Vec<u64>,
        summary: Vec<i64>,
    },
}

/// The stores of a way after a walk.
pub fn stores(frame: &Frame, way: Way, walk: &Walk) -> Stores {
    match way {
        Way::Joint => {
            let (counts, words) = joint_stores(frame, walk);
            Stores::Joint { counts, words }
        }
        Way::Columns => Stores::Columns { numbers: column_numbers(frame, walk) },
        Way::Chain => Stores::Chain { entries: chain_entries(frame, walk) },
        Way::Coarse => {
            let (counts, words) = joint_stores(frame, walk);
            Stores::Coarse { counts, words, summary: summary(frame, &last_window(frame, walk)) }
        }
    }
}

fn last_window(frame: &Frame, walk: &Walk) -> Window {
    let (column, row) = walk.last();
    Window::at(frame, column, row)
}

/// The joint histogram and its occupancy words.
fn joint_stores(frame: &Frame, walk: &Walk) -> (Vec<u16>, Vec<u64>) {
    let counts = joint_counts(frame, walk);
    let words = occupancy_words(&frame.settings, &counts);
    (counts, words)
}

/// The joint histogram: cell i·M + f counts the pixels of level i and guide f.
fn joint_counts(frame: &Frame, walk: &Walk) -> Vec<u16> {
    let guides = usize::from(frame.settings.guides);
    let mut counts = vec![0; usize::from(frame.settings.levels) * guides];
    for pixel in last_window(frame, walk).pixels {
        counts[usize::from(pixel.level) * guides + usize::from(pixel.guide)] += 1;
    }
    counts
}

/// Bit f mod 64 of word i·k + f / 64 says that the cell of level i and guide f is occupied.
fn occupancy_words(settings: &Settings, counts: &[u16]) -> Vec<u64> {
    let guides = usize::from(settings.guides);
    let per_level = words_per_level(settings);
    let mut words = vec![0; usize::from(settings.levels) * per_level];
    for (cell, &count) in counts.iter().enumerate() {
        let (level, guide) = (cell / guides, cell % guides);
        if count > 0 {
            words[level * per_level + guide / 64] |= 1 << (guide % 64);
        }
    }
    words
}

/// The sum of the counted weights of each block's levels.
pub fn summary(frame: &Frame, window: &Window) -> Vec<i64> {
    let mut sums = vec![0; blocks(&frame.settings)];
    for (level, weight) in window.counted() {
        sums[usize::from(level / BLOCK_LEVELS)] += weight;
    }
    sums
}

/// Per column and level the count and the guide sum in the window's rows; then those of the window.
fn column_numbers(frame: &Frame, walk: &Walk) -> Vec<u32> {
    let settings = &frame.settings;
    let (width, levels) = (usize::from(settings.width), usize::from(settings.levels));
    let (column, row) = walk.last();
    let window_columns = reach(column, settings.radius, settings.width);
    let (mut counts, mut sums) = (vec![0; width * levels], vec![0; width * levels]);
    let (mut window_counts, mut window_sums) = (vec![0; levels], vec![0; levels]);
    for t in reach(row, settings.radius, settings.height) {
        for s in 0..width {
            let Some(level) = frame.level(s, t).map(usize::from) else { continue };
            let guide = u32::from(frame.guide(s, t));
            counts[s * levels + level] += 1;
            sums[s * levels + level] += guide;
            if window_columns.contains(&s) {
                window_counts[level] += 1;
                window_sums[level] += guide;
            }
        }
    }
    [counts, sums, window_counts, window_sums].concat()
}

/// The window's levels, ascending, each once.
fn chain_entries(frame: &Frame, walk: &Walk) -> Vec<ChainEntry> {
    let mut pixels = last_window(frame, walk).pixels;
    pixels.sort_by_key(|pixel| pixel.level);
    let same_level = pixels.chunk_by(|one, other| one.level == other.level);
    same_level
        .map(|run| ChainEntry {
            level: u32::from(run[0].level),
            count: run.len() as u32,
            guide_sum: run.iter().map(|pixel| u32::from(pixel.guide)).sum(),
        })
        .collect()
}

/// The balance box: per guide, the window's pixels at the cut or below less those above.
pub fn balance_box(frame: &Frame, walk: &Walk) -> [i16; BOX_CELLS] {
    let mut cells = [0; BOX_CELLS];
    for pixel in last_window(frame, walk).pixels {
        let side = if pixel.level <= walk.cut { 1 } else { -1 };
        cells[usize::from(pixel.guide)] += side;
    }
    cells
}
