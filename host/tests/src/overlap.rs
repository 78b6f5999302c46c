//! Frames whose planes overlap. They are the largest that the program takes: one plane that serves as
//! values and guides has up to 8,178 pixels in a file of 16,384 bytes.

use sorting_filter::frame::{bytes_of, trailer_bytes, Settings, KIND_GUIDED, KIND_TABLE, NO_READING, TRAILER};
use sorting_filter::program::{INPUT_MOST, SIDE_MOST};
use sorting_filter::random::{overlapping_file, Random};

/// Three sizes of 8,178 pixels, the widest picture and the tallest.
const SIZES: [(u16, u16); 5] = [(29, 282), (47, 174), (58, 141), (64, 127), (8, 1022)];

fn settings((width, height): (u16, u16), kind: u8, radius: u8) -> Settings {
    let smoothing = if kind == KIND_GUIDED { 9 } else { 0 };
    Settings { width, height, levels: SIDE_MOST, guides: SIDE_MOST, kind, radius, smoothing }
}

/// One plane for both, of these numbers.
fn one_plane(settings: &Settings, numbers: &[u16]) -> Vec<u8> {
    let plane = bytes_of(numbers);
    let trailer = trailer_bytes(settings, [plane.len(), plane.len(), 0]);
    [plane, trailer].concat()
}

/// Numbers of two digits each: a level for each pixel makes the longest text that the program prints.
fn two_digits(random: &mut Random, settings: &Settings) -> Vec<u16> {
    (0..settings.pixels()).map(|_| random.within(10, SIDE_MOST - 1)).collect()
}

/// Accepted files: one plane for both in all sizes and kinds, and planes that begin an odd or even number
/// of bytes apart, the value plane first or the guide plane.
pub fn accepted(random: &mut Random) -> Vec<Vec<u8>> {
    let mut files = Vec::new();
    for (index, size) in SIZES.into_iter().enumerate() {
        for kind in [KIND_TABLE, KIND_GUIDED] {
            files.push(overlapping_file(random, &settings(size, kind, index as u8 % 4), 0, &[]));
        }
    }
    for shift in [1, -99, 100] {
        files.push(overlapping_file(random, &settings((64, 127), KIND_GUIDED, 1), shift, &[]));
    }
    // Half of each plane is its own, so that an odd shift leaves more than zeros.
    for (kind, shift) in [(KIND_TABLE, 2_401), (KIND_GUIDED, -2_401), (KIND_GUIDED, 2_400)] {
        files.push(overlapping_file(random, &settings((40, 60), kind, 2), shift, &[]));
    }
    // Over 256 levels a value's high byte can be a guide's low byte.
    for (kind, shift) in [(KIND_TABLE, 1), (KIND_GUIDED, 1), (KIND_GUIDED, -1)] {
        let many = Settings { levels: 1024, guides: 256, ..settings((30, 20), kind, 2) };
        files.push(overlapping_file(random, &many, shift, &[]));
    }
    files
}

/// Inputs for the program: the accepted files, the longest texts, and files that it refuses.
pub fn inputs(random: &mut Random) -> Vec<Vec<u8>> {
    [accepted(random), longest_texts(random), dead_texts(random), refused(random)].concat()
}

fn longest_texts(random: &mut Random) -> Vec<Vec<u8>> {
    let frames = [((29, 282), KIND_GUIDED, 1), ((47, 174), KIND_TABLE, 3), ((58, 141), KIND_GUIDED, 15)];
    let mut file = |(size, kind, radius)| {
        let settings = settings(size, kind, radius);
        one_plane(&settings, &two_digits(random, &settings))
    };
    frames.into_iter().map(&mut file).collect()
}

/// Dead pixels whose windows are themselves alone: six bytes of text for each, but their own bytes are no guide's, so
/// that a text with them is no longer. All pixels are dead, or those whose bytes are their own.
fn dead_texts(random: &mut Random) -> Vec<Vec<u8>> {
    let frames = [((29, 141), KIND_GUIDED), ((47, 87), KIND_TABLE), ((29, 200), KIND_GUIDED), ((50, 100), KIND_TABLE)];
    let mut file = |(size, kind)| {
        let settings = settings(size, kind, 0);
        let dead = (INPUT_MOST - TRAILER) / 2 - settings.pixels();
        let numbers = [vec![NO_READING; dead], two_digits(random, &settings)].concat();
        let trailer = trailer_bytes(&settings, [2 * numbers.len(), 2 * settings.pixels(), 0]);
        [bytes_of(&numbers), trailer].concat()
    };
    frames.into_iter().map(&mut file).collect()
}

/// A byte, a row, a column, a level count or a guide count above the program's limits, and a number too
/// large for both planes or for the guides alone.
fn refused(random: &mut Random) -> Vec<Vec<u8>> {
    let settings = settings(SIZES[0], KIND_GUIDED, 1);
    let numbers = two_digits(random, &settings);
    let whole = one_plane(&settings, &numbers);
    assert_eq!(whole.len(), INPUT_MOST);
    let too_large = [&numbers[1..], &[SIDE_MOST]].concat();
    let mut flat = |settings: Settings| overlapping_file(random, &settings, 0, &[]);
    vec![
        [&[0], whole.as_slice()].concat(),
        flat(Settings { width: 64, height: 128, ..settings }),
        flat(Settings { width: 65, height: 125, ..settings }),
        flat(Settings { levels: 65, ..settings }),
        flat(Settings { guides: 65, ..settings }),
        one_plane(&settings, &too_large),
        one_plane(&Settings { guides: 10, ..settings }, &numbers),
    ]
}
