//! Mistakes of explanations: in the cause, the number of pixels, the sums, the level, and where the pixel is.

use crate::dead;
use crate::fault::{limits, CHOSEN};
use crate::hollow::Place;
use sorting_filter::calls;
use sorting_filter::explain::{Cause, Explanation};
use sorting_filter::frame::{locate, open, Frame, NO_READING};
use sorting_filter::refusal::{check, Refusal};
use sorting_filter::window::{reach, Window};

/// How the names of these mistakes begin; for another no window need be looked at again.
const NAMES: &str = "explain_";

/// The explanation of a pixel with the mistake, if one of these is asked for.
pub fn explain(file: &[u8], pixel: (usize, usize)) -> Result<Explanation, Refusal> {
    if !CHOSEN.starts_with(NAMES) {
        return calls::explain(file, pixel);
    }
    let pixel = looked_at(file, pixel)?;
    let mut why = calls::explain(file, pixel)?;
    let frame = open(file)?;
    let (_, places) = locate(file)?;
    limits(&frame.table, places.table.unwrap_or(0), "explain_limit_left")?;
    let place = Place::at(&frame, pixel);
    spoil_dead(&frame, pixel, &mut why);
    spoil_cause(&place, &mut why);
    spoil_sums(&place, &mut why);
    spoil_level(&place, &mut why);
    Ok(why)
}

/// The pixel that is taken for the asked one, and whether it is checked too early.
fn looked_at(file: &[u8], (column, row): (usize, usize)) -> Result<(usize, usize), Refusal> {
    let Ok((settings, _)) = locate(file) else { return Ok((column, row)) };
    let (width, height) = (usize::from(settings.width), usize::from(settings.height));
    Ok(match CHOSEN.as_str() {
        "explain_row_for_column" => (row, column),
        "explain_pixel_cut" => (usize::from(column as u16), usize::from(row as u16)),
        "explain_place_unchecked" => (column.min(width - 1), row.min(height - 1)),
        "explain_row_unchecked" => (column, row.min(height - 1)),
        "explain_place_first" => {
            check(9, column >= width || row >= height)?;
            (column, row)
        }
        _ => (column, row),
    })
}

/// Dead pixels in the sums, a dead centre taken for an empty window, and an empty window for another sort.
fn spoil_dead(frame: &Frame, pixel: (usize, usize), why: &mut Explanation) {
    let k = frame.settings;
    let whole = reach(pixel.0, k.radius, k.width).count() * reach(pixel.1, k.radius, k.height).count();
    let dead_centre = frame.level(pixel.0, pixel.1).is_none();
    let total = |mistake: &str| dead::window(mistake, frame, pixel).total();
    if why.cause == Cause::Empty {
        match CHOSEN.as_str() {
            "explain_empty_ordinary" => why.cause = Cause::Ordinary,
            "explain_empty_hollow" => why.cause = Cause::Hollow,
            "explain_empty_level_zero" => why.level = 0,
            "explain_empty_pixels" => why.pixels = whole,
            "explain_empty_total" => why.total = whole as i64,
            "explain_empty_reached" => why.reached = whole as i64,
            _ => {}
        }
        return;
    }
    match CHOSEN.as_str() {
        "explain_dead_pixels" => why.pixels = whole,
        "explain_dead_total" => why.total = total("dead_in_total"),
        "explain_dead_sums" => why.total = total("dead_in_n"),
        "explain_dead_centre" if dead_centre => why.total = total("dead_centre_guide_zero"),
        "explain_dead_centre_empty" if dead_centre => {
            let (level, cause) = (NO_READING, Cause::Empty);
            *why = Explanation { pixels: 0, total: 0, level, below: 0, reached: 0, cause };
        }
        _ => {}
    }
}

fn spoil_cause(place: &Place, why: &mut Explanation) {
    let ends = [Cause::NegativeAtZero, Cause::NegativeAtLast];
    let steady = !ends.contains(&why.cause);
    let hollow = why.cause == Cause::Hollow;
    match CHOSEN.as_str() {
        "explain_other_end" if !steady => why.cause = ends[usize::from(why.cause == ends[0])],
        "explain_always_zero" if !steady => why.cause = ends[0],
        "explain_always_last" if !steady => why.cause = ends[1],
        // By the window's pixels in place of the formula.
        "explain_end_by_pixels" if !place.window.has_negative_weight() && !steady => why.cause = Cause::Ordinary,
        "explain_zero_at_zero" if formula_at(place, 0) == Some(0) => why.cause = ends[0],
        "explain_zero_at_last" if formula_at(place, place.last_guide()) == Some(0) => why.cause = ends[1],
        "explain_hollow_ordinary" if hollow => why.cause = Cause::Ordinary,
        "explain_hollow_by_row" if hollow && !place.row_of_zeros() => why.cause = Cause::Ordinary,
        "explain_hollow_by_total" if steady && why.total == why.pixels as i64 => why.cause = Cause::Hollow,
        "explain_hollow_small" if steady && why.total < 256 => why.cause = Cause::Hollow,
        "explain_hollow_centre" if steady && place.full_around_the_centre() => why.cause = Cause::Hollow,
        _ => {}
    }
}

/// Kind 2's weight at a guide, on the line through two of the window's pixels; none in kind 1, whose weights lie on no
/// line, nor where all guides are alike.
fn formula_at(place: &Place, guide: u16) -> Option<i64> {
    let pixels = &place.window.pixels;
    let other = pixels.iter().find(|pixel| place.guided() && pixel.guide != pixels[0].guide)?;
    let from_first = |guide: u16| i64::from(guide) - i64::from(pixels[0].guide);
    let slope = (other.own_weight - pixels[0].own_weight) / from_first(other.guide);
    Some(pixels[0].own_weight + slope * from_first(guide))
}

fn spoil_sums(place: &Place, why: &mut Explanation) {
    let hollow = place.window.hollow();
    match CHOSEN.as_str() {
        "explain_whole_square" => why.pixels = place.whole_square() as usize,
        "explain_weighing_pixels" => {
            why.pixels = place.window.pixels.iter().filter(|pixel| pixel.own_weight != 0).count();
        }
        "explain_below_reached" => why.below = why.reached,
        "explain_reached_alone" => why.reached -= why.below,
        "explain_below_at_zero" if why.level == 0 => why.below = why.reached,
        "explain_below_clamped" => why.below = why.below.max(0),
        "explain_reached_clamped" => why.reached = why.reached.min(why.total),
        "explain_total_cut" => why.total = i64::from(why.total as i32),
        "explain_total_without_answer" => why.total -= why.reached - why.below,
        "explain_hollow_own" if hollow => (why.total, why.below, why.reached) = (0, 0, 0),
        "explain_hollow_own_total" if hollow => why.total = 0,
        "explain_hollow_square" if hollow => why.total = place.whole_square(),
        _ => {}
    }
}

fn spoil_level(place: &Place, why: &mut Explanation) {
    let window = &place.window;
    // Another level with its own sums.
    let mut answer = |level: u16| {
        why.below = if level > 0 { window.cumulative(level - 1) } else { 0 };
        (why.level, why.reached) = (level, window.cumulative(level));
    };
    match CHOSEN.as_str() {
        "explain_strict_half" => answer(place.lowest(|level| window.balance(level) > 0)),
        // As by halving the levels, where the cumulative weight falls on the way.
        "explain_later_crossing" => answer(last_crossing(window)),
        "explain_hollow_level" if window.hollow() => answer(place.centre_level()),
        "explain_level_before" => why.level = why.level.saturating_sub(1),
        "explain_level_cut" => why.level &= 255,
        _ => {}
    }
}

/// The highest level that occurs at which half is reached, and below which it is not.
fn last_crossing(window: &Window) -> u16 {
    let crosses = |&level: &u16| window.balance(level) >= 0 && (level == 0 || window.balance(level - 1) < 0);
    window.pixels.iter().map(|pixel| pixel.level).filter(crosses).max().unwrap_or_else(|| window.answer())
}
