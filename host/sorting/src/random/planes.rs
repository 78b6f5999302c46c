//! Contents of the planes and the table: plain noise hides mistakes that flat, split and lonely
//! contents show.

use super::Random;
use crate::frame::{Settings, NO_READING};

fn fill(length: usize, mut number: impl FnMut(usize) -> u16) -> Vec<u16> {
    (0..length).map(&mut number).collect()
}

/// Levels, and in every second plane dead pixels among them.
pub fn random_values(random: &mut Random, settings: &Settings) -> Vec<u16> {
    let mut values = random_levels(random, settings);
    if random.once_in(2) {
        kill(random, settings, &mut values);
    }
    values
}

/// Makes pixels dead, nearly always one at least.
pub fn kill(random: &mut Random, settings: &Settings, values: &mut [u16]) {
    let dead = random_dead(random, settings);
    values.iter_mut().zip(dead).filter(|(_, dead)| *dead).for_each(|(value, _)| *value = NO_READING);
}

/// Which pixels are dead: one, a few, half, most, all, all but one, stripes of columns or of rows that are wider or
/// narrower than a window, or the rows from one on. Stripes leave windows without a reading beside others.
pub(super) fn random_dead(random: &mut Random, settings: &Settings) -> Vec<bool> {
    let (pixels, width) = (settings.pixels(), usize::from(settings.width));
    let one = random.below(pixels);
    let stripe = 1 + random.below(2 * usize::from(settings.radius) + 4);
    let (sort, first) = (random.below(9), random.below(2));
    let mut dead = |pixel: usize| match sort {
        0 => pixel == one,
        1 => random.once_in(20),
        2 => random.once_in(2),
        3 => !random.once_in(20),
        4 => true,
        5 => pixel != one,
        6 => (pixel % width / stripe + first) % 2 == 0,
        7 => (pixel / width / stripe + first) % 2 == 0,
        _ => pixel / width >= one / width,
    };
    (0..pixels).map(&mut dead).collect()
}

/// Levels: noise, a few levels only, a slope with outliers, or both ends.
fn random_levels(random: &mut Random, settings: &Settings) -> Vec<u16> {
    let (pixels, most) = (settings.pixels(), settings.levels - 1);
    match random.below(4) {
        0 => fill(pixels, |_| random.within(0, most)),
        1 => {
            let few = [random.within(0, most), random.within(0, most), random.within(0, most)];
            fill(pixels, |_| random.pick(&few))
        }
        2 => fill(pixels, |index| match random.below(6) {
            0 => random.within(0, most),
            _ => (index * usize::from(most) / pixels) as u16,
        }),
        _ => fill(pixels, |_| if random.once_in(2) { 0 } else { most }),
    }
}

/// Guides: flat, split down the middle, noise, or a few lonely pixels at the other end, whose windows
/// have negative weights in kind 2.
pub fn random_guides(random: &mut Random, settings: &Settings) -> Vec<u16> {
    let (pixels, most) = (settings.pixels(), settings.guides - 1);
    let (one, other) = (random.within(0, most), random.within(0, most));
    let width = usize::from(settings.width);
    match random.below(6) {
        0 => vec![one; pixels],
        1 => fill(pixels, |index| if 2 * (index % width) < width { one } else { other }),
        2 => fill(pixels, |_| if random.once_in(7) { most } else { 0 }),
        3 => fill(pixels, |_| if random.once_in(7) { 0 } else { most }),
        _ => fill(pixels, |_| random.within(0, most)),
    }
}

/// Sizes of weights: small, like the built-in ones, middle, any, the largest, and those about 32,768, where
/// mistakes show of a library that cuts weights short, takes them as signed numbers or takes 32,768 off.
const SIZES: [(u16, u16); 6] = [(0, 9), (0, 256), (257, 16_384), (0, 65_535), (65_534, 65_535), (32_766, 32_769)];

/// Guides of a few classes, and a table with weights of 0 that leave hollow windows beside others: lamps alone in
/// their class, stripes wider and narrower than a window, or classes by chance, under rows of 0, no weight within a
/// class, weights within the first class only, or weights here and there.
pub fn random_classes(random: &mut Random, settings: &Settings) -> (Vec<u16>, Vec<u16>) {
    let (pixels, width, last) = (settings.pixels(), usize::from(settings.width), settings.guides - 1);
    let classes = [0, last, random.within(0, last), random.within(0, last)];
    let guides = match random.below(3) {
        0 => fill(pixels, |_| if random.once_in(6) { random.pick(&classes) } else { 0 }),
        1 => {
            let stripe = 1 + random.below(2 * usize::from(settings.radius) + 3);
            fill(pixels, |index| classes[index % width / stripe % classes.len()])
        }
        _ => fill(pixels, |_| random.pick(&classes)),
    };
    let (least, most) = random.pick(&SIZES);
    let sort = random.below(4);
    let empty_rows: Vec<bool> = (0..settings.guides).map(|_| random.once_in(2)).collect();
    let table = fill(settings.table_weights(), |index| {
        let (centre, other) = (index / empty_rows.len(), index % empty_rows.len());
        let weighs = match sort {
            0 => !empty_rows[centre],
            1 => centre != other,
            2 => centre == 0 && other == 0,
            _ => random.once_in(3),
        };
        if weighs {
            random.within(least.max(1), most)
        } else {
            0
        }
    });
    (guides, table)
}

/// Weights of one size, or in the last case of every size: all 0, mostly 0, all alike, both ends, noise, or
/// heavy above the diagonal only, where a transposed table shows; and now and then rows of 0 among them.
pub fn random_table(random: &mut Random, settings: &Settings) -> Vec<u16> {
    let (weights, guides) = (settings.table_weights(), usize::from(settings.guides));
    let (least, most) = random.pick(&SIZES);
    let same = random.within(least, most);
    let mut table = match random.below(8) {
        0 => vec![0; weights],
        1 => fill(weights, |_| if random.once_in(8) { random.within(least, most) } else { 0 }),
        2 => vec![same; weights],
        3 => fill(weights, |_| if random.once_in(2) { 0 } else { most }),
        4 => fill(weights, |index| if index / guides < index % guides { most } else { 1 }),
        5 | 6 => fill(weights, |_| random.within(least, most)),
        _ => fill(weights, |_| random.ranged(&SIZES)),
    };
    if random.once_in(4) {
        for row in table.chunks_mut(guides) {
            if random.once_in(3) {
                row.fill(0);
            }
        }
    }
    table
}
