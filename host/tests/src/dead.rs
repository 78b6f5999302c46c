//! Small frames with dead pixels, from one to all, and of both kinds: every window as a walk's only one, walks from every
//! window and through all of them in every serving way, and balances at every level that tells two answers apart.

use crate::every_window;
use crate::tally::Tally;
use crate::writing::written;
use crate::Check;
use sorting_filter::frame::{Settings, KIND_GUIDED, KIND_TABLE};
use sorting_filter::random::{kill, random_classes, random_guides, random_table, random_values, Random};

/// Width, height, level count, guide count and radius: single pixels, rows, columns, windows clipped on all sides
/// and none, one block, short blocks and many, one word of guides and several.
const SHAPES: [(u16, u16, u16, u16, u8); 10] = [
    (1, 1, 8, 2, 1),
    (9, 1, 8, 2, 1),
    (1, 9, 33, 3, 1),
    (5, 4, 2, 2, 0),
    (7, 6, 16, 64, 1),
    (6, 7, 17, 65, 1),
    (9, 5, 40, 3, 2),
    (4, 4, 40, 256, 1),
    (3, 3, 1024, 129, 15),
    (8, 7, 1024, 4, 1),
];

/// Frames of each shape and kind.
const FRAMES: usize = 6;

pub fn test(random: &mut Random, tally: &mut Tally) -> Check {
    for (width, height, levels, guides, radius) in SHAPES {
        for (kind, smoothing) in [(KIND_TABLE, 0), (KIND_GUIDED, random.within(1, 64))] {
            let settings = Settings { width, height, levels, guides, kind, radius, smoothing };
            for _ in 0..FRAMES {
                test_frame(random, &settings, tally).map_err(|error| format!("{settings:?}: {error}"))?;
            }
        }
    }
    Ok(())
}

/// The file of a frame, nearly always with dead pixels, and its values.
pub fn file(random: &mut Random, settings: &Settings) -> Result<(Vec<u8>, Vec<u16>), String> {
    let mut values = random_values(random, settings);
    kill(random, settings, &mut values);
    let (guides, table) = if settings.kind == KIND_GUIDED {
        (random_guides(random, settings), Vec::new())
    } else if random.once_in(2) {
        random_classes(random, settings)
    } else {
        (random_guides(random, settings), random_table(random, settings))
    };
    Ok((written(settings, &values, &guides, &table)?, values))
}

fn test_frame(random: &mut Random, settings: &Settings, tally: &mut Tally) -> Check {
    let (file, values) = file(random, settings)?;
    every_window::test(random, settings, &file, &values, tally)
}
