//! Files of accepted frames, their parts laid out in every way that document 01 allows.

use super::planes::random_dead;
use super::{random_classes, random_guides, random_table, random_values, Random};
use crate::frame::{bytes_of, number16, trailer_bytes, Settings, KIND_GUIDED, KIND_TABLE, NO_READING};

/// Width and height: a rectangle, a single row or column, or smaller than the window.
fn size(random: &mut Random, side: u16, radius: u8) -> (u16, u16) {
    let long = if random.once_in(40) { 1024 } else { 4 * side };
    match random.below(8) {
        0 => (1, random.within(1, long)),
        1 => (random.within(1, long), 1),
        2 => {
            let small = u16::from(radius).clamp(1, side);
            (random.within(1, small), random.within(1, small))
        }
        _ => (random.within(1, side), random.within(1, side)),
    }
}

/// Settings within all limits; most pictures have sides of at most `side`.
pub fn settings(random: &mut Random, side: u16) -> Settings {
    let kind = random.pick(&[KIND_TABLE, KIND_GUIDED]);
    let radius = random.ranged(&[(0, 2), (0, 4), (0, 4), (0, 7), (0, 15), (15, 15)]) as u8;
    let (width, height) = size(random, side, radius);
    let smoothing = random.ranged(&[(1, 1), (1, 64), (64, 64), (1, 65_025), (65_025, 65_025)]);
    Settings {
        width,
        height,
        levels: random.ranged(&[(2, 2), (2, 9), (15, 17), (31, 33), (2, 64), (2, 1024), (1024, 1024)]),
        guides: random.ranged(&[(2, 2), (2, 9), (2, 64), (63, 65), (127, 129), (2, 256), (256, 256)]),
        kind,
        radius,
        smoothing: if kind == KIND_GUIDED { smoothing } else { 0 },
    }
}

/// The file of a random frame.
pub fn accepted_file(random: &mut Random, side: u16) -> Vec<u8> {
    let settings = settings(random, side);
    accepted_file_of(random, &settings)
}

/// The file of a random frame with these settings, its parts laid out at random.
pub fn accepted_file_of(random: &mut Random, settings: &Settings) -> Vec<u8> {
    let table = if settings.kind == KIND_TABLE && !random.once_in(4) {
        bytes_of(&random_table(random, settings))
    } else {
        Vec::new()
    };
    match random.below(6) {
        0 => shared(random, settings, table.len()),
        1 if settings.levels > 256 || random.once_in(8) => {
            let plane = 2 * settings.pixels();
            let odd = 2 * random.below(plane) as isize + 1 - plane as isize;
            let mut file = overlapping_file(random, settings, odd, &table);
            file.splice(0..0, junk(random));
            file
        }
        2 if settings.kind == KIND_TABLE => {
            let values = bytes_of(&random_values(random, settings));
            let (guides, table) = random_classes(random, settings);
            scattered(random, settings, [values, bytes_of(&guides), bytes_of(&table)])
        }
        _ => {
            let values = bytes_of(&random_values(random, settings));
            let guides = bytes_of(&random_guides(random, settings));
            scattered(random, settings, [values, guides, table])
        }
    }
}

/// The body and its trailer, for parts that begin at `starts`.
fn closed(mut body: Vec<u8>, settings: &Settings, starts: [Option<usize>; 3]) -> Vec<u8> {
    let distance = |start: Option<usize>| start.map_or(0, |start| body.len() - start);
    let trailer = trailer_bytes(settings, starts.map(distance));
    body.extend(trailer);
    body
}

/// Up to five bytes that no part uses; often none.
fn junk(random: &mut Random) -> Vec<u8> {
    let length = random.below(6) * random.below(2);
    random.bytes(length)
}

/// The parts in any order with junk around them, so that distances are odd as well as even.
fn scattered(random: &mut Random, settings: &Settings, parts: [Vec<u8>; 3]) -> Vec<u8> {
    let orders = [[0, 1, 2], [0, 2, 1], [1, 0, 2], [1, 2, 0], [2, 0, 1], [2, 1, 0]];
    let mut body = Vec::new();
    let mut starts = [None; 3];
    for part in random.pick(&orders) {
        body.extend(junk(random));
        if !parts[part].is_empty() {
            starts[part] = Some(body.len());
            body.extend(&parts[part]);
        }
    }
    body.extend(junk(random));
    closed(body, settings, starts)
}

/// All parts within one stretch of numbers that are small enough for each, so that they overlap; now and then with dead
/// pixels where the value plane has bytes that are no guide's.
fn shared(random: &mut Random, settings: &Settings, table: usize) -> Vec<u8> {
    let plane = 2 * settings.pixels();
    let length = plane.max(table) + 2 * random.below(settings.pixels() + 1);
    let most = settings.levels.min(settings.guides) - 1;
    let numbers: Vec<u16> = (0..length / 2).map(|_| random.within(0, most)).collect();
    let mut body = junk(random);
    let first = body.len();
    body.extend(bytes_of(&numbers));
    let mut place = |part: usize| first + 2 * random.below((length - part) / 2 + 1);
    let (values, guides) = (place(plane), place(plane));
    let starts = [Some(values), Some(guides), (table > 0).then(|| place(table))];
    if random.once_in(2) {
        for (pixel, dead) in random_dead(random, settings).into_iter().enumerate() {
            let start = values + 2 * pixel;
            if dead && !(guides..guides + plane).contains(&start) {
                body[start..start + 2].copy_from_slice(&NO_READING.to_be_bytes());
            }
        }
    }
    closed(body, settings, starts)
}

/// The file of a random frame whose guide plane begins `shift` bytes after its value plane, or before it.
///
/// Where they overlap a byte serves both planes, and an odd shift makes one's high byte the other's low
/// byte: numbers that are then too large for their plane are lowered, often to 0. The guides come first, since a value
/// may keep all its bits.
pub fn overlapping_file(random: &mut Random, settings: &Settings, shift: isize, table: &[u8]) -> Vec<u8> {
    let (values, guides) = (bytes_of(&random_values(random, settings)), bytes_of(&random_guides(random, settings)));
    let (plane, apart) = (values.len(), shift.unsigned_abs());
    let (first, second) = if shift < 0 { (guides, values) } else { (values, guides) };
    let mut body = [&first, &second[plane - apart..]].concat();
    let (value_start, guide_start) = if shift < 0 { (apart, 0) } else { (0, apart) };
    lower(&mut body[guide_start..guide_start + plane], |guide| guide < settings.guides);
    lower(&mut body[value_start..value_start + plane], |value| value < settings.levels || value == NO_READING);
    let table_start = (!table.is_empty()).then_some(body.len());
    body.extend(table);
    closed(body, settings, [Some(value_start), Some(guide_start), table_start])
}

/// The file of a random frame whose guide plane and table, if it has one, begin so many bytes after its value plane, or
/// before it, with junk around all. A byte of several parts is the value plane's, or else the guide plane's, so that a
/// guide may be too large where the planes overlap.
pub fn laid_out_file(random: &mut Random, settings: &Settings, guides: isize, table: Option<isize>) -> Vec<u8> {
    let parts = [
        (table.unwrap_or(0), table.map_or_else(Vec::new, |_| bytes_of(&random_table(random, settings)))),
        (guides, bytes_of(&random_guides(random, settings))),
        (0, bytes_of(&random_values(random, settings))),
    ];
    let first = parts.iter().map(|part| part.0).min().unwrap_or(0);
    let mut body = junk(random);
    let before = body.len();
    let place = |start: isize| before + (start - first) as usize;
    for (start, bytes) in &parts {
        let end = place(*start) + bytes.len();
        body.extend(random.bytes(end.saturating_sub(body.len())));
        body[place(*start)..end].copy_from_slice(bytes);
    }
    body.extend(junk(random));
    closed(body, settings, [Some(place(0)), Some(place(guides)), table.map(place)])
}

/// Makes bytes 0 until every number is `right`. No number grows by that, so that guides below their count stay below it
/// when the values are lowered after them.
fn lower(plane: &mut [u8], right: impl Fn(u16) -> bool) {
    for number in plane.chunks_exact_mut(2) {
        for place in 0..2 {
            if !right(number16(number, 0)) {
                number[place] = 0;
            }
        }
    }
}
