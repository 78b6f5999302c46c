//! Mistakes of splitting a value plane into byte planes and of joining it: in the checks and their order, in where the
//! plane's bytes go, in the bytes that are copied, and in the offset.

use crate::fault::{makes, spoil, CHOSEN};
use sorting_filter::byte_planes::{join_plane, split_plane};
use sorting_filter::frame::{check_contents, check_planes, locate, number16, number32, settings, Settings};
use sorting_filter::frame::{KIND_TABLE, MARK, NO_READING, TRAILER};
use sorting_filter::refusal::{check, Refusal};
use std::ops::Range;
use Call::{Join, Split};
use Part::{Guide, Table};

#[derive(Clone, Copy, PartialEq, Eq)]
pub enum Call {
    Split,
    Join,
}

#[derive(Clone, Copy)]
enum Part {
    Guide,
    Table,
}

/// A file that checks 1 to 6 let pass: the bytes of its three parts, and how many lie before the trailer.
struct Layout {
    settings: Settings,
    parts: [Range<usize>; 3],
    before: usize,
}

impl Layout {
    /// Whether a byte before the trailer is no part's.
    fn gap(&self, byte: usize) -> bool {
        !self.parts.iter().any(|part| part.contains(&byte))
    }
}

/// The call with the mistake, if one of these is asked for.
pub fn make(call: Call, file: &[u8], output: &mut [u8]) -> Result<(), Refusal> {
    match checked(call, file, output.len()) {
        Ok(layout) => {
            put(call, file, &layout, output);
            Ok(())
        }
        Err(refusal) => {
            on_refusal(call, refusal.number, file, output);
            Err(refusal)
        }
    }
}

/// All checks, in the order that the mistake has.
fn checked(call: Call, file: &[u8], lent: usize) -> Result<Layout, Refusal> {
    let room = || check(11, short(call, file.len(), lent));
    match (call, CHOSEN.as_str()) {
        (Split, "split_room_first") | (Join, "join_room_first") => room()?,
        (Split, "split_overlap_before_distances") | (Join, "join_overlap_before_distances") => unseen_overlap(file)?,
        _ => {}
    }
    let layout = located(call, file)?;
    let overlap = || overlap(call, &layout);
    let contents = || contents(call, file, &layout);
    let order: [&dyn Fn() -> Result<(), Refusal>; 3] = match (call, CHOSEN.as_str()) {
        (Split, "split_contents_before_overlap") => [&contents, &overlap, &room],
        (Split, "split_overlap_last") => [&contents, &room, &overlap],
        (Split, "split_room_before_contents") => [&overlap, &room, &contents],
        (Split, "split_room_before_overlap") | (Join, "join_room_before_overlap") => [&room, &overlap, &contents],
        _ => [&overlap, &contents, &room],
    };
    order.into_iter().try_for_each(|check| check())?;
    Ok(layout)
}

/// Checks 1 to 6. A mistake passes over what the call has no other use for: then the trailer is read with these bytes.
fn located(call: Call, file: &[u8]) -> Result<Layout, Refusal> {
    let (place, bytes): (usize, &[u8]) = match (call, CHOSEN.as_str()) {
        (Split, "split_mark_unchecked") | (Join, "join_mark_unchecked") => (24, &MARK),
        (Split, "split_counts_unchecked") | (Join, "join_counts_unchecked") => (4, &[0, 2, 0, 2]),
        (Split, "split_kind_unchecked") | (Join, "join_kind_unchecked") => (8, &[1, 1, 0, 0]),
        (Split, "split_radius_unchecked") | (Join, "join_radius_unchecked") => (9, &[0]),
        (Split, "split_table_unlocated") | (Join, "join_table_unlocated") => (20, &[0; 4]),
        _ => (0, &[]),
    };
    let (settings, places) = locate(file).or_else(|refusal| {
        let start = file.len().checked_sub(TRAILER).ok_or(refusal)? + place;
        let mut read = file.to_vec();
        read[start..start + bytes.len()].copy_from_slice(bytes);
        locate(&read)
    })?;
    Ok(Layout { settings, parts: places.bytes(&settings), before: file.len() - TRAILER })
}

/// Check 14 of distances that check 6 has not seen.
fn unseen_overlap(file: &[u8]) -> Result<(), Refusal> {
    let Ok(settings) = settings(file) else { return Ok(()) };
    let distance = |part: usize| number32(file, file.len() - TRAILER + 12 + 4 * part) as i64;
    let (plane, table) = (2 * settings.pixels() as i64, 2 * settings.table_weights() as i64);
    let overlaps = |part: usize, length: i64| {
        let ahead = distance(0) - distance(part);
        ahead < plane && -ahead < length
    };
    check(14, overlaps(1, plane) || (distance(2) != 0 && overlaps(2, table)))
}

/// Check 14 with the mistake.
fn overlap(call: Call, layout: &Layout) -> Result<(), Refusal> {
    let [values, guides, table] = compared(call, layout);
    let right = shares(call, Guide, &values, &guides) || !table.is_empty() && shares(call, Table, &values, &table);
    let overlaps = match (call, CHOSEN.as_str()) {
        // Looked for in kind 1 alone, or only beside a table.
        (Split, "split_guided_passes") | (Join, "join_guided_passes") => right && layout.settings.kind == KIND_TABLE,
        (Split, "split_built_in_passes") | (Join, "join_built_in_passes") => right && !table.is_empty(),
        // Looked for between the other two as well.
        (Split, "split_others_overlap") | (Join, "join_others_overlap") => {
            right || guides.start < table.end && table.start < guides.end
        }
        _ => right,
    };
    match (call, CHOSEN.as_str()) {
        (Split, "split_number_of_tolerance") | (Join, "join_number_of_tolerance") => check(13, overlaps),
        (Split, "split_overlap_as_distance") | (Join, "join_overlap_as_distance") => check(6, overlaps),
        (Split, "split_overlap_as_contents") if overlaps => Err(Refusal::contents(values.start)),
        _ => check(14, overlaps),
    }
}

/// The parts that check 14 compares.
fn compared(call: Call, layout: &Layout) -> [Range<usize>; 3] {
    let [mut values, mut guides, mut table] = layout.parts.clone();
    let (pixels, weights) = (layout.settings.pixels(), layout.settings.table_weights());
    match (call, CHOSEN.as_str()) {
        // A byte for each number.
        (Split, "split_values_halved") | (Join, "join_values_halved") => values.end = values.start + pixels,
        (Split, "split_guides_halved") | (Join, "join_guides_halved") => guides.end = guides.start + pixels,
        (Split, "split_table_halved") | (Join, "join_table_halved") if !table.is_empty() => {
            table.end = table.start + weights;
        }
        // A row alone.
        (Split, "split_table_row") | (Join, "join_table_row") if !table.is_empty() => {
            table.end = table.start + 2 * usize::from(layout.settings.guides);
        }
        // A table where the file has none: from its first byte, or up to the trailer.
        (Split, "split_no_table_first") | (Join, "join_no_table_first") if table.is_empty() => table = 0..2 * weights,
        (Split, "split_no_table_last") | (Join, "join_no_table_last") if table.is_empty() => {
            table = layout.before.saturating_sub(2 * weights)..layout.before;
        }
        _ => {}
    }
    [values, guides, table]
}

/// Whether a part and the value plane have a byte in common.
fn shares(call: Call, part: Part, values: &Range<usize>, bytes: &Range<usize>) -> bool {
    match (call, part, CHOSEN.as_str()) {
        (Split, Guide, "split_guide_passes")
        | (Join, Guide, "join_guide_passes")
        | (Split, Table, "split_table_passes")
        | (Join, Table, "join_table_passes") => false,
        // One byte is not enough.
        (Split, Guide, "split_guide_front_missed")
        | (Join, Guide, "join_guide_front_missed")
        | (Split, Table, "split_table_front_missed")
        | (Join, Table, "join_table_front_missed") => bytes.start < values.end && values.start + 1 < bytes.end,
        (Split, Guide, "split_guide_end_missed")
        | (Join, Guide, "join_guide_end_missed")
        | (Split, Table, "split_table_end_missed")
        | (Join, Table, "join_table_end_missed") => bytes.start + 1 < values.end && values.start < bytes.end,
        // None is needed: they touch.
        (Split, Guide, "split_guide_front_touches")
        | (Join, Guide, "join_guide_front_touches")
        | (Split, Table, "split_table_front_touches")
        | (Join, Table, "join_table_front_touches") => bytes.start < values.end && values.start <= bytes.end,
        (Split, Guide, "split_guide_end_touches")
        | (Join, Guide, "join_guide_end_touches")
        | (Split, Table, "split_table_end_touches")
        | (Join, Table, "join_table_end_touches") => bytes.start <= values.end && values.start < bytes.end,
        // One of the two begins within the other, but not the other way round.
        (Split, Guide, "split_guide_begins_within")
        | (Join, Guide, "join_guide_begins_within")
        | (Split, Table, "split_table_begins_within")
        | (Join, Table, "join_table_begins_within") => values.contains(&bytes.start),
        (Split, Guide, "split_guide_begins_before")
        | (Join, Guide, "join_guide_begins_before")
        | (Split, Table, "split_table_begins_before")
        | (Join, Table, "join_table_begins_before") => bytes.contains(&values.start),
        _ => bytes.start < values.end && values.start < bytes.end,
    }
}

fn numbers(bytes: &[u8]) -> Vec<u16> {
    bytes.chunks_exact(2).map(|two| number16(two, 0)).collect()
}

/// Check 7 with the mistake; joining makes none without one.
fn contents(call: Call, file: &[u8], layout: &Layout) -> Result<(), Refusal> {
    let Layout { settings: k, parts, .. } = layout;
    let [values, guides, table] = parts.clone().map(|part| numbers(&file[part]));
    let [value_start, guide_start, table_start] = parts.clone().map(|part| part.start);
    let value = |value: u16| value < k.levels || value == NO_READING;
    let guide = |guide: u16| guide < k.guides;
    let right = || check_planes(k, (&values, value_start), (&guides, guide_start));
    match (call, CHOSEN.as_str()) {
        (Split, "split_contents_unchecked") => Ok(()),
        (Split, "split_values_unchecked") => check_contents(&guides, guide_start, guide),
        (Split, "split_guides_unchecked") => check_contents(&values, value_start, value),
        (Split, "split_guides_checked_first") => check_contents(&guides, guide_start, guide).and_then(|()| right()),
        (Split, "split_dead_refused") => {
            check_contents(&values, value_start, |value| value < k.levels).and_then(|()| right())
        }
        (Split, "split_dead_guide_passes") => check_contents(&values, value_start, value)
            .and_then(|()| check_contents(&guides, guide_start, |number| guide(number) || number == NO_READING)),
        (Split, "split_weights_checked") => {
            right().and_then(|()| check_contents(&table, table_start, |weight| weight <= 256))
        }
        // Of the split plane, which holds no levels.
        (Split, "split_moved_checked") => {
            let moved = numbers(&split_plane(&file[parts[0].clone()]));
            right().and_then(|()| check_contents(&moved, value_start, value))
        }
        (Split, _) | (Join, "join_contents_checked") => right(),
        (Join, "join_guides_checked") => check_contents(&guides, guide_start, guide),
        (Join, "join_joined_checked") => {
            check_contents(&numbers(&join_plane(&file[parts[0].clone()])), value_start, value)
        }
        (Join, _) => Ok(()),
    }
}

/// Check 11 with the mistake.
fn short(call: Call, needed: usize, lent: usize) -> bool {
    match (call, CHOSEN.as_str()) {
        (Split, "split_room_unchecked") | (Join, "join_room_unchecked") => false,
        (Split, "split_exact_refused") | (Join, "join_exact_refused") => lent <= needed,
        (Split, "split_long_refused") | (Join, "join_long_refused") => lent != needed,
        (Split, "split_one_short_passes") | (Join, "join_one_short_passes") => lent + 1 < needed,
        (Split, "split_trailer_no_room") | (Join, "join_trailer_no_room") => lent + TRAILER < needed,
        (Split, "split_room_cut") | (Join, "join_room_cut") => usize::from(lent as u16) < needed,
        (Split, "split_lengths_cut") | (Join, "join_lengths_cut") => (lent as u16) < needed as u16,
        _ => lent < needed,
    }
}

/// The plane with some of its numbers moved, each byte to or from the place that is said of it, and the others copied.
fn placed(
    call: Call,
    plane: &[u8],
    moved: Range<usize>,
    high: impl Fn(usize) -> usize,
    low: impl Fn(usize) -> usize,
) -> Vec<u8> {
    let mut output = plane.to_vec();
    let last = plane.len() - 1;
    for number in moved {
        for (own, place) in [(2 * number, high(number)), (2 * number + 1, low(number))] {
            match call {
                Split => output[place.min(last)] = plane[own],
                Join => output[own] = plane[place.min(last)],
            }
        }
    }
    output
}

/// The value plane rearranged.
fn plane(call: Call, plane: &[u8], width: usize) -> Vec<u8> {
    let pixels = plane.len() / 2;
    let first = |moved: usize| placed(call, plane, 0..moved, |number| number, |number| pixels + number);
    let right = first(pixels);
    match (call, CHOSEN.as_str()) {
        (Split, "split_plane_copied") | (Join, "join_plane_copied") => plane.to_vec(),
        (Split, "split_as_join") => join_plane(plane),
        (Join, "join_as_split") => split_plane(plane),
        (Split, "split_low_first") | (Join, "join_low_first") => {
            placed(call, plane, 0..pixels, |number| pixels + number, |number| number)
        }
        (Split, "split_low_early") | (Join, "join_low_early") => {
            placed(call, plane, 0..pixels, |number| number, |number| pixels + number - 1)
        }
        (Split, "split_low_late") | (Join, "join_low_late") => {
            placed(call, plane, 0..pixels, |number| number, |number| pixels + number + 1)
        }
        (Split, "split_high_late") | (Join, "join_high_late") => {
            placed(call, plane, 0..pixels, |number| number + 1, |number| pixels + number)
        }
        (Split, "split_first_left") | (Join, "join_first_left") => {
            placed(call, plane, 1..pixels, |number| number, |number| pixels + number)
        }
        (Split, "split_low_reversed") | (Join, "join_low_reversed") => {
            placed(call, plane, 0..pixels, |number| number, |number| 2 * pixels - 1 - number)
        }
        (Split, "split_by_rows") => plane.chunks(2 * width).flat_map(split_plane).collect(),
        (Join, "join_by_rows") => plane.chunks(2 * width).flat_map(join_plane).collect(),
        (Split, "split_first_row") | (Join, "join_first_row") => first(width),
        (Split, "split_last_left") | (Join, "join_last_left") => first(pixels - 1),
        (Split, "split_odd_left") | (Join, "join_odd_left") => first(pixels / 2 * 2),
        (Split, "split_rest_of_eight_left") | (Join, "join_rest_of_eight_left") => first(pixels / 8 * 8),
        (Split, "split_rest_left") | (Join, "join_rest_left") => first(pixels / 64 * 64),
        (Split, "split_far_left") | (Join, "join_far_left") => first(pixels.min(65_536)),
        // As a library might that decodes the numbers.
        (Split, "split_sign_cut") | (Join, "join_sign_cut") => {
            let places = |place: usize| if call == Split { place < pixels } else { place % 2 == 0 };
            let cut = |(place, byte): (usize, u8)| if places(place) { byte & 127 } else { byte };
            right.into_iter().enumerate().map(cut).collect()
        }
        (Split, "split_dead_as_zero") | (Join, "join_dead_as_zero") => {
            let joined = if call == Split { plane } else { &right };
            let alive = |&number: &u16| if number == NO_READING { 0 } else { number };
            let bytes: Vec<u8> = numbers(joined).iter().flat_map(|number| alive(number).to_be_bytes()).collect();
            if call == Split {
                split_plane(&bytes)
            } else {
                bytes
            }
        }
        _ => right,
    }
}

/// The whole file rearranged.
fn rearranged(call: Call, file: &[u8], layout: &Layout) -> Vec<u8> {
    let [values, guides, table] = layout.parts.clone();
    let width = usize::from(layout.settings.width);
    let mut output = file.to_vec();
    let mut move_part = |part: Range<usize>| {
        let moved = plane(call, &file[part.clone()], width);
        output[part].copy_from_slice(&moved);
    };
    match (call, CHOSEN.as_str()) {
        // A byte off.
        (Split, "split_begins_late") | (Join, "join_begins_late") => move_part(values.start + 1..values.end + 1),
        (Split, "split_begins_early") | (Join, "join_begins_early") if values.start > 0 => {
            move_part(values.start - 1..values.end - 1);
        }
        // A number more.
        (Split, "split_ends_late") | (Join, "join_ends_late") => move_part(values.start..values.end + 2),
        _ => move_part(values.clone()),
    }
    match (call, CHOSEN.as_str()) {
        (Split, "split_guides_too") | (Join, "join_guides_too") => move_part(guides),
        (Split, "split_table_too") | (Join, "join_table_too") if !table.is_empty() => move_part(table),
        (Split, "split_first_byte") | (Join, "join_first_byte") => spoil(&mut output, values.start),
        (Split, "split_last_byte") | (Join, "join_last_byte") => spoil(&mut output, values.end - 1),
        // As a library might that notes what it did.
        (Split, "split_mark_changed") | (Join, "join_mark_changed") => spoil(&mut output, file.len() - 1),
        _ => {}
    }
    output
}

/// The bytes that stay as they were lent.
fn left(call: Call, layout: &Layout) -> Vec<usize> {
    let [values, guides, table] = layout.parts.clone();
    let start = values.start.min(guides.start).min(if table.is_empty() { values.start } else { table.start });
    let end = values.end.max(guides.end).max(table.end);
    let all = layout.before + TRAILER;
    match (call, CHOSEN.as_str()) {
        (Split, "split_front_gap_left") | (Join, "join_front_gap_left") => (0..start).collect(),
        (Split, "split_middle_gap_left") | (Join, "join_middle_gap_left") => {
            (start..end).filter(|&byte| layout.gap(byte)).collect()
        }
        (Split, "split_back_gap_left") | (Join, "join_back_gap_left") => (end..layout.before).collect(),
        (Split, "split_values_left") | (Join, "join_values_left") => values.collect(),
        (Split, "split_guides_left") | (Join, "join_guides_left") => guides.collect(),
        (Split, "split_table_left") | (Join, "join_table_left") => table.collect(),
        (Split, "split_trailer_left") | (Join, "join_trailer_left") => (layout.before..all).collect(),
        (Split, "split_file_end_left") | (Join, "join_file_end_left") => vec![all - 1],
        _ => Vec::new(),
    }
}

/// Writes the output, as much as there is room for.
fn put(call: Call, file: &[u8], layout: &Layout, output: &mut [u8]) {
    let mut moved = rearranged(call, file, layout);
    if let (Split, "split_gaps_cleared") | (Join, "join_gaps_cleared") = (call, CHOSEN.as_str()) {
        (0..layout.before).filter(|&byte| layout.gap(byte)).for_each(|byte| moved[byte] = 0);
    }
    let lent = left(call, layout).into_iter().filter(|&place| place < output.len());
    lent.for_each(|place| moved[place] = output[place]);
    output.iter_mut().zip(moved).for_each(|(byte, moved)| *byte = moved);
    match (call, CHOSEN.as_str()) {
        (Split, "split_beyond") | (Join, "join_beyond") => spoil(output, file.len()),
        (Split, "split_beyond_cleared") | (Join, "join_beyond_cleared") => {
            output.iter_mut().skip(file.len()).for_each(|byte| *byte = 0);
        }
        _ => {}
    }
}

/// The output touched although the call refuses, or before it does.
fn on_refusal(call: Call, number: u8, file: &[u8], output: &mut [u8]) {
    let touched = match (call, CHOSEN.as_str()) {
        (Split, "split_refusal_output") | (Join, "join_refusal_output") => true,
        (Split, "split_copied_before_overlap") | (Join, "join_copied_before_overlap") => number == 14,
        (Split, "split_copied_before_contents") => number == 7,
        (Split, "split_copied_before_room") | (Join, "join_copied_before_room") => number == 11,
        _ => false,
    };
    if touched {
        output.iter_mut().zip(file).for_each(|(byte, &copied)| *byte = copied);
    }
}

/// The offset of number 7, and mistakes about it.
pub fn set_offset(file: &[u8], result: Result<(), Refusal>, offset: &mut u64) {
    let start = locate(file).map_or(0, |(_, places)| places.values);
    let place = match (result, CHOSEN.as_str()) {
        (Err(Refusal { number: 7, .. }), "split_offset_left") => return,
        (Err(Refusal { number: 7, offset }), "split_offset_low_byte") => offset + 1,
        (Err(Refusal { number: 7, offset }), "split_offset_in_plane") => offset.saturating_sub(start),
        (Err(Refusal { number: 7, offset }), _) => offset,
        (Err(Refusal { number: 14, .. }), "split_overlap_offset") => start,
        (Err(Refusal { number: 11, .. }), "split_room_offset") => file.len(),
        (Err(_), "split_refusal_offset") => 0,
        (Ok(()), "split_success_offset") => 0,
        _ => return,
    };
    *offset = place as u64;
}

/// Whether the call writes to the file, which it may only read.
pub fn writes_file(call: Call) -> bool {
    match call {
        Split => makes("split_file_written"),
        Join => makes("join_file_written"),
    }
}
