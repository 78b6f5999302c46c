//! Small frames in which hollow windows lie beside others: every window as a walk's only one, walks from every window
//! and through all of them, and balances at every level that tells two answers apart.

use crate::every_window;
use crate::tally::Tally;
use crate::writing::written;
use crate::Check;
use sorting_filter::frame::{Settings, KIND_TABLE};
use sorting_filter::random::{random_classes, random_values, Random};

/// Width, height, level count, guide count and radius: single pixels, rows, columns, windows clipped on all sides
/// and none, one block, short blocks and many, one word of guides and several.
const SHAPES: [(u16, u16, u16, u16, u8); 10] = [
    (1, 1, 8, 2, 1),
    (7, 1, 8, 2, 1),
    (1, 7, 33, 3, 2),
    (5, 4, 2, 2, 0),
    (5, 4, 16, 64, 1),
    (4, 5, 17, 65, 1),
    (6, 5, 40, 3, 2),
    (3, 2, 40, 256, 1),
    (3, 3, 1024, 129, 15),
    (8, 7, 1024, 4, 3),
];

/// Frames of each shape.
const FRAMES: usize = 8;

pub fn test(random: &mut Random, tally: &mut Tally) -> Check {
    for (width, height, levels, guides, radius) in SHAPES {
        let settings = Settings { width, height, levels, guides, kind: KIND_TABLE, radius, smoothing: 0 };
        for _ in 0..FRAMES {
            test_frame(random, &settings, tally).map_err(|error| format!("{settings:?}: {error}"))?;
        }
    }
    Ok(())
}

/// The file of a frame with hollow windows, and its values.
pub fn file(random: &mut Random, settings: &Settings) -> Result<(Vec<u8>, Vec<u16>), String> {
    let values = random_values(random, settings);
    let (guides, table) = random_classes(random, settings);
    Ok((written(settings, &values, &guides, &table)?, values))
}

fn test_frame(random: &mut Random, settings: &Settings, tally: &mut Tally) -> Check {
    let (file, values) = file(random, settings)?;
    every_window::test(random, settings, &file, &values, tally)
}
