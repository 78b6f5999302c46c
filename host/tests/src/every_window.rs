//! Every window of a small frame: as a walk's only one, as the start of a walk, and balanced.

use crate::frames::{place, test_accepted, test_walk_from, try_balance};
use crate::tally::Tally;
use crate::Check;
use sorting_filter::frame::{Settings, NO_READING};
use sorting_filter::random::{moves, Random};
use sorting_filter::store::Way;

const MOVES: usize = 30;

/// Walks from every window in every serving way, and balances at every level that tells two answers apart.
pub fn test(random: &mut Random, settings: &Settings, file: &[u8], values: &[u16], tally: &mut Tally) -> Check {
    test_accepted(random, file, tally)?;
    let levels = levels_about(values, settings);
    for pixel in 0..settings.pixels() {
        let place = place(settings, pixel);
        for way in Way::ALL.into_iter().filter(|way| way.serves(settings.kind)) {
            test_walk_from(random, file, way, place, &[], tally)?;
            let moves = moves(random, settings, MOVES);
            test_walk_from(random, file, way, place, &moves, tally)?;
        }
        for &level in &levels {
            try_balance(file, place, u32::from(level), tally)?;
        }
    }
    Ok(())
}

/// Balances change at the levels that occur and nowhere else: these, those below them, and both ends.
fn levels_about(values: &[u16], settings: &Settings) -> Vec<u16> {
    let live = values.iter().filter(|&&value| value != NO_READING);
    let mut levels: Vec<u16> = live.flat_map(|&value| [value.saturating_sub(1), value]).collect();
    levels.extend([0, settings.levels - 1]);
    levels.sort_unstable();
    levels.dedup();
    levels
}
