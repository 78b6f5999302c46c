//! Random frames, walks and damaged files. A seed gives the same frames on every machine.

mod damage;
mod files;
mod planes;

pub use damage::{damage, damage_table, put_distance};
pub use files::{accepted_file, accepted_file_of, laid_out_file, overlapping_file, settings};
pub use planes::{kill, random_classes, random_guides, random_table, random_values};

use crate::frame::Settings;
use crate::walk::serpentine;

/// A small generator of pseudo-random numbers (splitmix64).
#[derive(Clone, Debug)]
pub struct Random(u64);

impl Random {
    /// A generator for a seed; neighbouring seeds give unrelated numbers.
    pub fn new(seed: u64) -> Random {
        Random(seed)
    }

    /// The next 64 bits.
    pub fn bits(&mut self) -> u64 {
        self.0 = self.0.wrapping_add(0x9E37_79B9_7F4A_7C15);
        let mut z = self.0;
        z = (z ^ (z >> 30)).wrapping_mul(0xBF58_476D_1CE4_E5B9);
        z = (z ^ (z >> 27)).wrapping_mul(0x94D0_49BB_1331_11EB);
        z ^ (z >> 31)
    }

    /// A number below `bound`, which is above 0.
    pub fn below(&mut self, bound: usize) -> usize {
        (self.bits() % bound as u64) as usize
    }

    /// A number from `low` to `high`, both included.
    pub fn within(&mut self, low: u16, high: u16) -> u16 {
        low + self.below(usize::from(high - low) + 1) as u16
    }

    /// True once in `times` on average.
    pub fn once_in(&mut self, times: usize) -> bool {
        self.below(times) == 0
    }

    /// One of the items.
    pub fn pick<T: Copy>(&mut self, items: &[T]) -> T {
        items[self.below(items.len())]
    }

    /// A number from one of the ranges, each range as likely as another.
    pub fn ranged(&mut self, ranges: &[(u16, u16)]) -> u16 {
        let (low, high) = self.pick(ranges);
        self.within(low, high)
    }

    /// Arbitrary bytes.
    pub fn bytes(&mut self, length: usize) -> Vec<u8> {
        (0..length).map(|_| self.bits() as u8).collect()
    }
}

/// A start pixel of the picture.
pub fn start(random: &mut Random, settings: &Settings) -> (usize, usize) {
    let column = random.below(usize::from(settings.width));
    (column, random.below(usize::from(settings.height)))
}

/// A list of at most `most` moves: single steps, long runs into the border, or the serpentine, with
/// bytes among them that are no moves.
pub fn moves(random: &mut Random, settings: &Settings, most: usize) -> Vec<u8> {
    let length = random.below(most + 1);
    let mut moves = match random.below(4) {
        0 => serpentine(settings.width, settings.height),
        1 => runs(random, length),
        _ => (0..length).map(|_| random.below(4) as u8).collect(),
    };
    moves.truncate(length);
    if random.once_in(2) {
        for byte in &mut moves {
            if random.once_in(12) {
                *byte = random.within(4, 255) as u8;
            }
        }
    }
    moves
}

/// Runs of equal moves.
fn runs(random: &mut Random, length: usize) -> Vec<u8> {
    let mut moves = Vec::new();
    while moves.len() < length {
        let (byte, times) = (random.below(4) as u8, 1 + random.below(40));
        moves.extend(std::iter::repeat_n(byte, times));
    }
    moves
}
