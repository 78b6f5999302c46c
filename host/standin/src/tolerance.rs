//! Mistakes of a filter with upper levels: in its checks and their order, in either plane and count, and in the stores.

use crate::fault::{makes, spoil, CHOSEN};
use crate::front;
use sorting_filter::frame::{locate, open, Frame, KIND_TABLE, NO_READING};
use sorting_filter::refusal::{check, Refusal};
use sorting_filter::store::Stores;
use sorting_filter::tolerance::{both, Lengths, Tolerated};
use sorting_filter::walk;
use sorting_filter::window::Window;

/// The stores and the outputs that a call lends.
pub struct Lent<'a> {
    pub counts: &'a mut [u16],
    pub words: &'a mut [u64],
    pub least: &'a mut [u16],
    pub greatest: &'a mut [u16],
}

/// Both planes with the mistake, if one of these is asked for.
pub fn tolerance(file: &[u8], upper: &[u16], lent: &Lent) -> Result<Tolerated, Refusal> {
    let frame = checked(file, upper, lent)?;
    let upper = taken(&frame, upper);
    let mut bounds = both(&frame, &upper);
    spoil_planes(&frame, &upper, &mut bounds);
    spoil_shifts(&frame, &upper, &mut bounds);
    spoil_stores(&mut bounds);
    Ok(bounds)
}

/// All checks, in the order that the mistake has.
fn checked(file: &[u8], upper: &[u16], lent: &Lent) -> Result<Frame, Refusal> {
    before_contents(file, upper)?;
    let frame = open(file)?;
    let kind = || check(8, frame.settings.kind != KIND_TABLE && !makes("tolerance_kind_passes"));
    let fits = || match refused(&frame, upper) {
        true if makes("tolerance_number_of_program") => Err(Refusal::of(12)),
        true if makes("tolerance_as_contents") => Err(Refusal::contents(0)),
        refused => check(13, refused),
    };
    let room = || check(11, short(&frame, lent));
    match CHOSEN.as_str() {
        "tolerance_upper_before_kind" => fits().and_then(|()| kind()).and_then(|()| room()),
        "tolerance_room_before_upper" => kind().and_then(|()| room()).and_then(|()| fits()),
        "tolerance_room_before_kind" => room().and_then(|()| kind()).and_then(|()| fits()),
        _ => kind().and_then(|()| fits()).and_then(|()| room()),
    }?;
    Ok(frame)
}

/// A check of the call's own before the file's last one.
fn before_contents(file: &[u8], upper: &[u16]) -> Result<(), Refusal> {
    let Ok((settings, _)) = locate(file) else { return Ok(()) };
    match CHOSEN.as_str() {
        "tolerance_kind_before_contents" => check(8, settings.kind != KIND_TABLE),
        "tolerance_length_before_contents" => {
            check(13, settings.kind == KIND_TABLE && upper.len() != settings.pixels())
        }
        _ => Ok(()),
    }
}

/// Check 13 with the mistake.
fn refused(frame: &Frame, upper: &[u16]) -> bool {
    let pixels = frame.settings.pixels();
    let length = match CHOSEN.as_str() {
        "tolerance_length_untested" => false,
        "tolerance_long_passes" => upper.len() < pixels,
        "tolerance_short_passes" => upper.len() > pixels,
        "tolerance_length_cut" => upper.len() as u16 != pixels as u16,
        _ => upper.len() != pixels,
    };
    let (first, last) = match CHOSEN.as_str() {
        "tolerance_first_unchecked" => (1, pixels),
        "tolerance_last_unchecked" => (0, pixels - 1),
        "tolerance_row_only" => (0, frame.settings.width.into()),
        "tolerance_pixels_unchecked" => (0, 0),
        "tolerance_far_unchecked" => (0, pixels.min(65_536)),
        "tolerance_rest_unchecked" => (0, pixels / 64 * 64),
        _ => (0, pixels),
    };
    let equal = makes("tolerance_equal_refused") && upper == frame.values;
    let mut pairs = frame.values.iter().zip(upper).take(last).skip(first);
    length || equal || pairs.any(|(&reading, &upper)| !goes(frame.settings.levels, reading, upper))
}

/// Whether a reading and an upper level go together.
fn goes(levels: u16, reading: u16, upper: u16) -> bool {
    let one_passes = makes("tolerance_one_dead_passes");
    match (reading == NO_READING, upper == NO_READING) {
        (true, true) => return !makes("tolerance_dead_refused"),
        (true, false) => return one_passes || makes("tolerance_dead_reading_passes"),
        (false, true) => return one_passes || makes("tolerance_dead_upper_passes"),
        (false, false) => {}
    }
    let above = match CHOSEN.as_str() {
        "tolerance_strict" => reading >= upper,
        "tolerance_above_passes" => false,
        "tolerance_one_above_passes" => reading > upper + 1,
        _ => reading > upper,
    };
    let outside = match CHOSEN.as_str() {
        "tolerance_level_passes" => upper > levels,
        "tolerance_levels_unchecked" => false,
        "tolerance_most_levels" => upper >= 1024,
        "tolerance_last_level_refused" => upper >= levels - 1,
        _ => upper >= levels,
    };
    !(above || outside)
}

/// Check 11 with the mistake.
fn short(frame: &Frame, lent: &Lent) -> bool {
    let needed = Lengths::needed(&frame.settings);
    let (counts, words, least, greatest) = (lent.counts.len(), lent.words.len(), lent.least.len(), lent.greatest.len());
    let right = Lengths { counts, words, least, greatest };
    let lengths = match CHOSEN.as_str() {
        "tolerance_counts_unchecked" => Lengths { counts: usize::MAX, ..right },
        "tolerance_words_unchecked" => Lengths { words: usize::MAX, ..right },
        "tolerance_least_unchecked" => Lengths { least: usize::MAX, ..right },
        "tolerance_greatest_unchecked" => Lengths { greatest: usize::MAX, ..right },
        // As a library might that takes one buffer's length for the other's.
        "tolerance_least_for_both" => Lengths { greatest: least, ..right },
        "tolerance_length_of_output_cut" => Lengths { greatest: usize::from(greatest as u16), ..right },
        _ => right,
    };
    let long = makes("tolerance_long_output_refused") && greatest > needed.greatest;
    let exact = makes("tolerance_exact_refused") && right == needed;
    long || exact || !lengths.suffice(&needed)
}

/// The upper plane as it is filtered: where a mistake lets a wrong one pass, each number that no frame has is replaced.
fn taken(frame: &Frame, upper: &[u16]) -> Vec<u16> {
    let last = frame.settings.levels - 1;
    let level = |pixel: usize| match upper.get(pixel) {
        Some(&NO_READING) => NO_READING,
        Some(&level) => level.min(last),
        None => frame.values[pixel],
    };
    (0..frame.settings.pixels()).map(level).collect()
}

/// A plane with an answer of its own for each pixel's window.
fn answers(frame: &Frame, answer: impl Fn(&Window, usize) -> u16) -> Vec<u16> {
    let width = usize::from(frame.settings.width);
    let at = |pixel: usize| answer(&Window::at(frame, pixel % width, pixel / width), pixel);
    (0..frame.settings.pixels()).map(at).collect()
}

/// The lowest level above half of the weight.
fn strict_half(window: &Window) -> u16 {
    let levels = window.pixels.iter().map(|pixel| pixel.level);
    levels.filter(|&level| window.balance(level) > 0).min().unwrap_or(NO_READING)
}

fn spoil_planes(frame: &Frame, upper: &[u16], bounds: &mut Tolerated) {
    let raised = frame.with_values(upper);
    let (least, greatest) = (&mut bounds.least, &mut bounds.greatest);
    match CHOSEN.as_str() {
        "tolerance_swapped" => std::mem::swap(least, greatest),
        "tolerance_least_twice" => greatest.clone_from(least),
        "tolerance_greatest_twice" => least.clone_from(greatest),
        "tolerance_walk_order" => greatest.clone_from(&walk::filter(&raised).1.answers),
        "tolerance_built_in" => *greatest = walk::filter(&Frame { table: Vec::new(), ..raised }).0,
        "tolerance_strict_half" => *greatest = answers(&raised, |window, _| strict_half(window)),
        "tolerance_hollow_centre" => {
            let hollow = |window: &Window, pixel: usize| if window.hollow() { upper[pixel] } else { window.answer() };
            *greatest = answers(&raised, hollow);
        }
        "tolerance_empty_zero" => {
            greatest.iter_mut().filter(|level| **level == NO_READING).for_each(|level| *level = 0);
        }
        "tolerance_dead_as_last" => {
            let alive = |&level: &u16| if level == NO_READING { frame.settings.levels - 1 } else { level };
            *greatest = walk::filter(&frame.with_values(&upper.iter().map(alive).collect::<Vec<_>>())).0;
        }
        "tolerance_first_row" => {
            let width = usize::from(frame.settings.width);
            greatest[width..].copy_from_slice(&least[width..]);
        }
        // The pixel's own span added to its least answer.
        "tolerance_span_added" => {
            for (pixel, level) in greatest.iter_mut().enumerate() {
                *level = least[pixel].saturating_add(upper[pixel] - frame.values[pixel]);
            }
        }
        // Each window with its own pixel raised alone.
        "tolerance_centre_alone" => {
            let width = usize::from(frame.settings.width);
            *greatest = answers(frame, |_, pixel| {
                let mut values = frame.values.clone();
                values[pixel] = upper[pixel];
                Window::at(&frame.with_values(&values), pixel % width, pixel / width).answer()
            });
        }
        _ => {}
    }
}

fn spoil_shifts(frame: &Frame, upper: &[u16], bounds: &mut Tolerated) {
    let (least, greatest) = (bounds.least_shifts, bounds.greatest_shifts);
    match CHOSEN.as_str() {
        "tolerance_shifts_of_least" => bounds.greatest_shifts = least,
        "tolerance_shifts_of_greatest" => bounds.least_shifts = greatest,
        "tolerance_shifts_swapped" => (bounds.least_shifts, bounds.greatest_shifts) = (greatest, least),
        "tolerance_shifts_added" => bounds.greatest_shifts += least,
        // The upper filter begins at the cut of the lower one's end.
        "tolerance_cut_kept" => {
            let cut = walk::filter(frame).1.cut;
            let answers = walk::filter(&frame.with_values(upper)).1.answers;
            if let Some(&first) = answers.iter().find(|&&answer| answer != NO_READING) {
                bounds.greatest_shifts = greatest - u64::from(first) + u64::from(first.abs_diff(cut));
            }
        }
        "tolerance_shifts_coarse" => {
            bounds.greatest_shifts = walk::filter(&frame.with_values(upper)).1.coarse_shifts;
        }
        _ => {}
    }
}

fn spoil_stores(bounds: &mut Tolerated) {
    let Stores::Joint { counts, words } = &mut bounds.stores else { return };
    let Stores::Joint { counts: lower_counts, words: lower_words } = &bounds.lower_stores else { return };
    match CHOSEN.as_str() {
        "tolerance_stores_lower_last" => {
            counts.clone_from(lower_counts);
            words.clone_from(lower_words);
        }
        "tolerance_stores_lower_counts" => counts.clone_from(lower_counts),
        "tolerance_stores_lower_words" => words.clone_from(lower_words),
        "tolerance_stores_added" => counts.iter_mut().zip(lower_counts).for_each(|(count, lower)| *count += lower),
        "tolerance_stores_words_kept" => words.iter_mut().zip(lower_words).for_each(|(word, lower)| *word |= lower),
        "tolerance_stores_cleared" => {
            counts.fill(0);
            words.fill(0);
        }
        _ => {}
    }
}

/// Writes as much as there is room for.
fn put<T: Copy>(buffer: &mut [T], content: &[T]) {
    let length = buffer.len().min(content.len());
    front(buffer, &content[..length]);
}

impl Lent<'_> {
    /// Fills the buffers.
    pub fn put(&mut self, bounds: &Tolerated) {
        let Stores::Joint { counts, words } = &bounds.stores else { return };
        if !makes("tolerance_counts_left") {
            put(self.counts, counts);
        }
        if !makes("tolerance_words_left") {
            put(self.words, words);
        }
        if !makes("tolerance_least_left") {
            put(self.least, &bounds.least);
        }
        if !makes("tolerance_greatest_left") {
            put(self.greatest, &bounds.greatest);
        }
        let pixels = bounds.least.len();
        match CHOSEN.as_str() {
            "tolerance_least_level" => spoil(self.least, pixels - 1),
            "tolerance_greatest_level" => spoil(self.greatest, pixels - 1),
            "tolerance_beyond_least" => spoil(self.least, pixels),
            "tolerance_beyond_greatest" => spoil(self.greatest, pixels),
            "tolerance_beyond_counts" => spoil(self.counts, counts.len()),
            "tolerance_beyond_words" => spoil(self.words, words.len()),
            _ => {}
        }
    }

    /// Buffers touched although the call refuses, or before it does.
    pub fn on_refusal(&mut self, number: u32, file: &[u8]) {
        match CHOSEN.as_str() {
            "tolerance_refusal_counts" => spoil(self.counts, 0),
            "tolerance_refusal_words" => spoil(self.words, 0),
            "tolerance_refusal_least" => spoil(self.least, 0),
            "tolerance_refusal_greatest" => spoil(self.greatest, 0),
            "tolerance_filtered_before_upper" if number == 13 => self.filter(file),
            "tolerance_filtered_before_room" if number == 11 => self.filter(file),
            _ => {}
        }
    }

    fn filter(&mut self, file: &[u8]) {
        if let Ok(frame) = open(file) {
            put(self.least, &walk::filter(&frame).0);
        }
    }
}
