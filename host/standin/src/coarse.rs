//! Mistakes of the coarse way, in its count, in its summary and in a box that it does not hand back.

use crate::fault::CHOSEN;
use sorting_filter::calls::Walked;
use sorting_filter::frame::{open, Frame};
use sorting_filter::store::{balance_box, summary, Stores, BLOCK_LEVELS};
use sorting_filter::walk::Walk;
use sorting_filter::window::Window;

/// How the names of these mistakes begin; for another the walk need not be made again.
const NAMES: &str = "coarse_";

/// What a steady answer adds.
pub fn by_blocks(answer: u16) -> u16 {
    answer / BLOCK_LEVELS + answer % BLOCK_LEVELS
}

/// Makes the mistake in what the coarse way leaves after a walk, which `walk` makes again.
pub fn spoil(file: &[u8], walked: &mut Walked, walk: impl FnOnce(&Frame) -> Walk) {
    let Stores::Coarse { summary: sums, .. } = &mut walked.stores else { return };
    if !CHOSEN.starts_with(NAMES) {
        return;
    }
    let frame = open(file).expect("an accepted frame");
    let walk = walk(&frame);
    let window = |&(column, row): &(usize, usize)| Window::at(&frame, column, row);
    // Over the windows that are meant and have a reading, what `add` says of their answers.
    let total = |meant: fn(&Window) -> bool, add: fn(u16) -> u16| -> u64 {
        let windows = walk.visited.iter().map(window).filter(|window| !window.empty() && meant(window));
        windows.map(|window| u64::from(add(window.answer()))).sum()
    };
    let steady = Window::steady;
    let not_steady = |window: &Window| !window.steady();
    match CHOSEN.as_str() {
        "coarse_count_by_cut" => walked.shifts = walk.shifts,
        "coarse_blocks_twice" => walked.shifts += total(steady, |answer| answer / BLOCK_LEVELS),
        "coarse_levels_only" => walked.shifts -= total(steady, |answer| answer / BLOCK_LEVELS),
        "coarse_all_by_blocks" => walked.shifts -= total(not_steady, |answer| answer - by_blocks(answer)),
        "coarse_short_block" if frame.settings.levels % BLOCK_LEVELS != 0 => *sums.last_mut().expect("a block") = 0,
        "coarse_pixel_counts" => {
            let mut last = window(&walk.last());
            last.pixels.iter_mut().for_each(|pixel| pixel.own_weight = 1);
            *sums = summary(&frame, &last);
        }
        "coarse_first_window" => *sums = summary(&frame, &window(&walk.visited[0])),
        "coarse_window_before" => {
            let before = walk.visited.len().saturating_sub(2);
            *sums = summary(&frame, &window(&walk.visited[before]));
        }
        "coarse_box" => walked.balance_box = balance_box(&frame, &walk),
        _ => {}
    }
}
