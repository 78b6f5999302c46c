//! One window: its pixels, their weights, the cumulative weight and the median.

use crate::frame::{Frame, KIND_TABLE, NO_READING};
use std::ops::RangeInclusive;

/// A pixel of the window, which is never a dead one.
#[derive(Clone, Copy, Debug, PartialEq, Eq)]
pub struct Weighted {
    pub level: u16,
    pub guide: u16,
    /// By the frame's table or formula. In 64 bits every sum fits: a window has at most 961 pixels, a table's
    /// weight is at most 65,535, kind 2's is below 2^38 in size, and absolute differences are at most 1,023 times
    /// that.
    pub own_weight: i64,
}

/// The window at a centre, gathered anew.
#[derive(Clone, Debug)]
pub struct Window {
    /// The window's pixels, row by row, each with its own weight; none where all are dead.
    pub pixels: Vec<Weighted>,
    /// Whether the weight formula is negative at guide 0, and whether at the last guide; in kind 1 it is at neither.
    pub negative_at: [bool; 2],
}

/// The places from `centre - radius` to `centre + radius` that lie in the picture.
pub fn reach(centre: usize, radius: u8, size: u16) -> RangeInclusive<usize> {
    let radius = usize::from(radius);
    centre.saturating_sub(radius)..=(centre + radius).min(usize::from(size) - 1)
}

/// Level and guide of each pixel in the window: a dead one belongs to none.
fn gather(frame: &Frame, column: usize, row: usize) -> Vec<(u16, u16)> {
    let settings = &frame.settings;
    let mut pixels = Vec::new();
    for t in reach(row, settings.radius, settings.height) {
        for s in reach(column, settings.radius, settings.width) {
            pixels.extend(frame.level(s, t).map(|level| (level, frame.guide(s, t))));
        }
    }
    pixels
}

/// The numbers of kind 2's weight formula for one window.
struct Guided {
    n: i64,
    sum: i64,
    /// V = nQ - S² + n²E.
    variance: i64,
    /// n·g(x) - S.
    slope: i64,
}

impl Guided {
    fn of(pixels: &[(u16, u16)], centre_guide: u16, smoothing: u16) -> Guided {
        let n = pixels.len() as i64;
        let sum: i64 = pixels.iter().map(|&(_, g)| i64::from(g)).sum();
        let squares: i64 = pixels.iter().map(|&(_, g)| i64::from(g) * i64::from(g)).sum();
        Guided {
            n,
            sum,
            variance: n * squares - sum * sum + n * n * i64::from(smoothing),
            slope: n * i64::from(centre_guide) - sum,
        }
    }

    fn weight(&self, guide: u16) -> i64 {
        self.variance + self.slope * (self.n * i64::from(guide) - self.sum)
    }
}

/// What says the own weights of one window's pixels.
enum Weights<'a> {
    Table { frame: &'a Frame, centre_guide: u16 },
    Guided(Guided),
}

impl Weights<'_> {
    fn own_weight(&self, guide: u16) -> i64 {
        match self {
            Weights::Table { frame, centre_guide } => i64::from(frame.table_weight(*centre_guide, guide)),
            Weights::Guided(guided) => guided.weight(guide),
        }
    }
}

impl Window {
    /// The window at a pixel of the picture, which may be dead itself: its guide is the centre's all the same.
    pub fn at(frame: &Frame, column: usize, row: usize) -> Window {
        let pixels = gather(frame, column, row);
        let centre_guide = frame.guide(column, row);
        let settings = &frame.settings;
        let weights = match settings.kind {
            KIND_TABLE => Weights::Table { frame, centre_guide },
            _ => Weights::Guided(Guided::of(&pixels, centre_guide, settings.smoothing)),
        };
        let ends = [0, settings.guides - 1];
        let weighted = |&(level, guide)| Weighted { level, guide, own_weight: weights.own_weight(guide) };
        Window {
            pixels: pixels.iter().map(weighted).collect(),
            negative_at: ends.map(|end| weights.own_weight(end) < 0),
        }
    }

    /// Whether no pixel has a reading.
    pub fn empty(&self) -> bool {
        self.pixels.is_empty()
    }

    /// Whether the weight formula is not negative at both guide ends; always so in kind 1, and so in every hollow
    /// window: in kind 2 the own weights sum to nV, which is above 0. In an empty window the formula is 0.
    pub fn steady(&self) -> bool {
        self.negative_at == [false; 2]
    }

    /// Whether there are readings whose own weights sum to 0, so that they have no half to reach.
    pub fn hollow(&self) -> bool {
        !self.empty() && self.pixels.iter().map(|pixel| pixel.own_weight).sum::<i64>() == 0
    }

    /// The level and the counted weight of each pixel. The counted weight, which answers, balances and sums go by,
    /// is its own weight, but 1 in a hollow window.
    pub fn counted(&self) -> impl Iterator<Item = (u16, i64)> + '_ {
        let hollow = self.hollow();
        self.pixels.iter().map(move |pixel| (pixel.level, if hollow { 1 } else { pixel.own_weight }))
    }

    /// T: the sum of all counted weights.
    pub fn total(&self) -> i64 {
        self.counted().map(|(_, weight)| weight).sum()
    }

    /// U(i): the sum of the counted weights of level i and below.
    pub fn cumulative(&self, level: u16) -> i64 {
        self.counted().filter(|&(other, _)| other <= level).map(|(_, weight)| weight).sum()
    }

    /// 2U(i) - T.
    pub fn balance(&self, level: u16) -> i64 {
        2 * self.cumulative(level) - self.total()
    }

    /// Whether some pixel's own weight is below 0.
    pub fn has_negative_weight(&self) -> bool {
        self.pixels.iter().any(|pixel| pixel.own_weight < 0)
    }

    /// The answer: the lowest level at which the cumulative weight reaches half, or [`NO_READING`].
    pub fn answer(&self) -> u16 {
        if self.empty() {
            return NO_READING;
        }
        let mut sorted: Vec<(u16, i64)> = self.counted().collect();
        sorted.sort_by_key(|&(level, _)| level);
        let total = self.total();
        let mut cumulative = 0;
        let mut next = 0;
        let mut level = 0;
        loop {
            while next < sorted.len() && sorted[next].0 == level {
                cumulative += sorted[next].1;
                next += 1;
            }
            if 2 * cumulative >= total {
                return level;
            }
            // Between two levels that occur the cumulative weight stays. One is left, since the whole counted
            // weight is above 0 and more than its half.
            level = sorted[next].0;
        }
    }

    /// The weighted sum of absolute differences between the window's levels and `level`, by the own weights.
    pub fn absolute_differences(&self, level: u16) -> i64 {
        let distance = |pixel: &Weighted| i64::from(pixel.level.abs_diff(level));
        self.pixels.iter().map(|pixel| pixel.own_weight * distance(pixel)).sum()
    }
}
