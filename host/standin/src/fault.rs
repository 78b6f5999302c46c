//! Mistakes that the stand-in makes on demand, each of a sort that a real library could make.

use crate::Lent;
use sorting_filter::calls::Walked;
use sorting_filter::frame::{check_contents, locate, open, Frame, KIND_TABLE};
use sorting_filter::refusal::Refusal;
use sorting_filter::store::{Stores, BOX_CELLS};
use sorting_filter::window::Window;
use sorting_filter::writer;
use std::ops::BitXorAssign;
use std::sync::LazyLock;

pub static CHOSEN: LazyLock<String> = LazyLock::new(|| std::env::var("STANDIN_FAULT").unwrap_or_default());

/// Whether the mistake of that name is asked for.
pub fn makes(name: &str) -> bool {
    *CHOSEN == name
}

/// Changes a cell, if the buffer has it.
pub fn spoil<T: BitXorAssign + From<bool>>(buffer: &mut [T], place: usize) {
    if let Some(cell) = buffer.get_mut(place) {
        *cell ^= T::from(true);
    }
}

/// Mistakes in what a walk leaves in the buffers.
pub fn in_stores(lent: &mut Lent, walked: &Walked) {
    let answers = walked.answers.len();
    match CHOSEN.as_str() {
        "first_answer" => spoil(lent.answers, 0),
        "last_answer" => spoil(lent.answers, answers - 1),
        "beyond_answers" => spoil(lent.answers, answers),
        "summary_of_others" if !matches!(walked.stores, Stores::Coarse { .. }) => spoil(lent.summary, 0),
        _ => {}
    }
    match &walked.stores {
        Stores::Joint { counts, words } => match CHOSEN.as_str() {
            "count" => spoil(lent.counts, counts.len() - 1),
            "beyond_counts" => spoil(lent.counts, counts.len()),
            "bit_left_set" => lent.words[words.len() - 1] |= 1,
            "beyond_words" => spoil(lent.words, words.len()),
            "other_store" => spoil(lent.numbers, 0),
            _ => {}
        },
        Stores::Columns { numbers } => match CHOSEN.as_str() {
            "column_number" => spoil(lent.numbers, numbers.len() - 1),
            "beyond_columns" => spoil(lent.numbers, numbers.len()),
            "other_store" => spoil(lent.counts, 0),
            _ => {}
        },
        Stores::Chain { entries } => match CHOSEN.as_str() {
            "chain_guide_sum" => spoil(lent.numbers, 3),
            "chain_end" if !entries.is_empty() => lent.numbers[4] = 1,
            "beyond_chain" => {
                let last = lent.numbers.len() - 1;
                spoil(lent.numbers, last);
            }
            _ => {}
        },
        Stores::Coarse { counts, words, summary } => match CHOSEN.as_str() {
            "coarse_cell" => spoil(lent.counts, counts.len() - 1),
            "coarse_beyond_counts" => spoil(lent.counts, counts.len()),
            "coarse_bit_left_set" => lent.words[words.len() - 1] |= 1,
            "coarse_beyond_words" => spoil(lent.words, words.len()),
            "coarse_numbers" => spoil(lent.numbers, 0),
            "summary_sum" => spoil(lent.summary, summary.len() - 1),
            "beyond_summary" => spoil(lent.summary, summary.len()),
            _ => {}
        },
    }
}

/// The summary, as much as there is room for, unless it is left as it was lent.
pub fn put_summary(lent: &mut [i64], summary: &[i64]) {
    if !makes("summary_left") {
        lent.iter_mut().zip(summary).for_each(|(place, &sum)| *place = sum);
    }
}

/// The way that is taken for the asked one: 4 for 5, or none for 4 in kind 1.
pub fn way(file: &[u8], asked: u32) -> u32 {
    match CHOSEN.as_str() {
        "next_way_accepted" if asked == 5 => 4,
        "coarse_refused" if asked == 4 && table_frame(file).is_some() => 0,
        _ => asked,
    }
}

/// Mistakes in a walk's results beside the buffers.
pub fn in_results(walked: &mut Walked) {
    match CHOSEN.as_str() {
        "cut" => walked.cut ^= 1,
        "box" => walked.balance_box[BOX_CELLS - 1] += 1,
        _ => {}
    }
}

/// A result that is set although the call refuses, or an offset although the number is not 7.
pub fn set_on_refusal<T>(result: &mut T, value: T, name: &str) {
    if makes(name) {
        *result = value;
    }
}

/// A number, cut to its low bits by the mistake of that name.
pub fn narrowed(number: u32, bits: u32, name: &str) -> u32 {
    if makes(name) {
        return number & ((1 << bits) - 1);
    }
    number
}

/// A file refused only because its planes overlap.
pub fn refuses(file: &[u8]) -> bool {
    makes("overlap_refused") && locate(file).is_ok_and(|(settings, places)| places.overlap(&settings).is_some())
}

/// Document 01's limit of a weight, which request 1 lifted, left by the mistake of that name in the check of a
/// table that begins at `place`.
pub fn limits(table: &[u16], place: usize, name: &str) -> Result<(), Refusal> {
    if makes(name) {
        return check_contents(table, place, |weight| weight <= 256);
    }
    Ok(())
}

/// The file as a library reads it that cuts a weight to 15 or to 8 bits: written anew with such a table.
pub fn as_read(file: &[u8]) -> Vec<u8> {
    let cut = |&weight: &u16| narrowed(narrowed(weight.into(), 15, "weight_bit_cut"), 8, "weight_byte_cut") as u16;
    let Ok(frame) = open(file) else { return file.to_vec() };
    let table: Vec<u16> = frame.table.iter().map(cut).collect();
    if table == frame.table {
        return file.to_vec();
    }
    let written = writer::write(&frame.settings.asked(), &frame.values, &frame.guides, &table, usize::MAX);
    written.expect("an accepted frame")
}

/// A table's weight in a product of signed 16 bits: from 32,768 on it is a negative number.
fn signed(weight: u16) -> i64 {
    i64::from(weight as i16)
}

/// A table's weight less 32,768, which is not added back.
fn less(weight: u16) -> i64 {
    i64::from(weight) - 32_768
}

/// The balance of a window whose weights by a table are `wrong`.
fn wrong_balance(frame: &Frame, column: usize, row: usize, level: u16, wrong: fn(u16) -> i64) -> i64 {
    let mut window = Window::at(frame, column, row);
    window.pixels.iter_mut().for_each(|pixel| pixel.own_weight = wrong(pixel.own_weight as u16));
    window.balance(level)
}

/// Mistakes in the products of a balance.
pub fn in_balance(file: &[u8], (column, row): (usize, usize), level: u32, balance: &mut i64) {
    let wrong = match CHOSEN.as_str() {
        "balance_signed" => signed,
        "balance_less" => less,
        _ => return,
    };
    if let Some(frame) = table_frame(file) {
        *balance = wrong_balance(&frame, column, row, level as u16, wrong);
    }
}

/// Mistakes in the products of a filter: its search goes past a level whose balance is negative by them.
pub fn in_plane(file: &[u8], plane: &mut [u16]) {
    let wrong = match CHOSEN.as_str() {
        "filter_signed" => signed,
        "filter_less" => less,
        _ => return,
    };
    let Some(frame) = table_frame(file) else { return };
    let width = usize::from(frame.settings.width);
    for (index, level) in plane.iter_mut().enumerate() {
        let balance = wrong_balance(&frame, index % width, index / width, *level, wrong);
        *level += u16::from(balance < 0);
    }
}

/// A frame of kind 1.
pub fn table_frame(file: &[u8]) -> Option<Frame> {
    open(file).ok().filter(|frame| frame.settings.kind == KIND_TABLE)
}

/// A buffer touched although the call refuses.
pub fn on_refusal(lent: &mut Lent) {
    match CHOSEN.as_str() {
        "refusal_answers" => spoil(lent.answers, 0),
        "refusal_counts" => spoil(lent.counts, 0),
        "refusal_words" => spoil(lent.words, 0),
        "refusal_numbers" => spoil(lent.numbers, 0),
        "refusal_summary" => spoil(lent.summary, 0),
        _ => {}
    }
}

/// Mistakes of the writer.
pub fn in_file(output: &mut [u8], length: usize) {
    match CHOSEN.as_str() {
        "written_byte" => spoil(output, length - 5),
        "beyond_file" => spoil(output, length),
        _ => {}
    }
    let trailer = &mut output[length - 28..length];
    a_place_off(trailer, 0, 2, "width_off");
    a_place_off(trailer, 2, 2, "height_off");
    a_place_off(trailer, 4, 2, "levels_off");
    a_place_off(trailer, 6, 2, "guides_off");
    a_place_off(trailer, 8, 1, "kind_off");
    a_place_off(trailer, 9, 1, "radius_off");
    a_place_off(trailer, 10, 2, "smoothing_off");
    a_place_off(trailer, 12, 4, "value_distance_off");
    a_place_off(trailer, 16, 4, "guide_distance_off");
    a_place_off(trailer, 20, 4, "table_distance_off");
    a_place_off(trailer, 23, 4, "mark_off");
}

/// The last byte of a field in the place after it too.
fn a_place_off(trailer: &mut [u8], place: usize, bytes: usize, name: &str) {
    if makes(name) {
        trailer[place + bytes] = trailer[place + bytes - 1];
    }
}
