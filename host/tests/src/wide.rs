//! Numbers wider than a frame's: each is refused as it comes, and none is cut down to one that would pass.

use crate::buffers::{compare_all, roomy, Buffers};
use crate::library;
use crate::refusals::count;
use crate::tally::Tally;
use crate::{same, Check};
use sorting_filter::calls;
use sorting_filter::frame::{open, Asked, Frame, KIND_GUIDED, KIND_TABLE};
use sorting_filter::random::{damage, Random};
use sorting_filter::refusal::Refusal;
use sorting_filter::store::{Lengths, Way};
use sorting_filter::writer;

/// Document 01's frame.
fn settings() -> Asked {
    Asked { width: 3, height: 1, levels: 8, guides: 4, kind: KIND_GUIDED.into(), radius: 1, smoothing: 1 }
}

const VALUES: [u16; 3] = [5, 1, 3];
const GUIDES: [u16; 3] = [0, 0, 2];

/// What a writer is asked for beside the planes, and the number that refuses it.
fn asked() -> Vec<(Asked, u8)> {
    let right = settings();
    let table = Asked { kind: KIND_TABLE.into(), smoothing: 0, ..right };
    let one_wide = [
        (Asked { width: 65_539, ..right }, 2),
        (Asked { width: 3 | 1 << 31, ..right }, 2),
        (Asked { height: 65_537, ..right }, 2),
        (Asked { width: 65_536, height: 65_536, ..right }, 2),
        (Asked { levels: 65_537, ..right }, 3),
        (Asked { levels: 65_544, ..right }, 3),
        (Asked { guides: 65_540, ..right }, 3),
        (Asked { kind: 257, ..right }, 4),
        (Asked { kind: 258, ..right }, 4),
        (Asked { kind: 257, ..table }, 4),
        (Asked { kind: 65_538, ..right }, 4),
        (Asked { smoothing: 65_537, ..right }, 4),
        (Asked { smoothing: 65_537, ..table }, 4),
        (Asked { smoothing: 65_536, ..table }, 4),
        (Asked { radius: 257, ..right }, 5),
        (Asked { radius: 65_537, ..right }, 5),
    ];
    // The earlier check decides, also where a later number is narrow and wrong.
    let wide_and_later = [
        (Asked { height: 65_537, levels: 65_544, ..right }, 2),
        (Asked { width: 65_539, radius: 16, ..right }, 2),
        (Asked { guides: 65_540, kind: 258, ..right }, 3),
        (Asked { levels: 65_544, smoothing: 0, ..right }, 3),
        (Asked { kind: 258, radius: 257, ..right }, 4),
        (Asked { smoothing: 65_537, radius: 257, ..right }, 4),
        (Asked { levels: 1, kind: 258, ..right }, 3),
        (Asked { width: 0, levels: 65_544, ..right }, 2),
    ];
    [one_wide.as_slice(), &wide_and_later].concat()
}

pub fn test(random: &mut Random, tally: &mut Tally) -> Check {
    for (asked, number) in asked() {
        try_write(random, &asked, number, &VALUES, tally)?;
        // Planes of a wrong length are looked at later.
        try_write(random, &asked, number, &VALUES[1..], tally)?;
    }
    let file = writer::write(&settings(), &VALUES, &GUIDES, &[], usize::MAX).map_err(|refusal| refusal.to_string())?;
    let frame = open(&file).map_err(|refusal| refusal.to_string())?;
    for way in [257, 258, 259, 260, 65_537, 1 | 1 << 31, u32::MAX] {
        try_way(random, &file, &frame, way, (0, 0), 8, tally)?;
        // The start is looked at later, the file before.
        try_way(random, &file, &frame, way, (3, 0), 8, tally)?;
        for number in 1..=7 {
            let mut damaged = file.clone();
            damage(random, &mut damaged, number);
            try_way(random, &damaged, &frame, way, (0, 0), number, tally)?;
            try_level(&damaged, 65_537, number, tally)?;
            try_pixel(&damaged, (65_536, 0), number, tally)?;
        }
    }
    // A start that is outside by a wide number, with the same low bits as one inside.
    try_way(random, &file, &frame, 1, (65_536, 0), 9, tally)?;
    for pixel in [(65_536, 0), (0, 65_536), (1 << 32, 0), (0, 1 << 32), (1 << 63, 0), (2, 1 << 63)] {
        try_pixel(&file, pixel, 9, tally)?;
    }
    for level in [65_536, 65_537, 1 | 1 << 31, u32::MAX] {
        try_level(&file, level, 9, tally)?;
    }
    Ok(())
}

fn counted<T>(what: &str, expected: &Result<T, Refusal>, number: u8, tally: &mut Tally) -> Check {
    tally.wide += 1;
    count(expected, tally);
    same(what, &expected.as_ref().err().map(|refusal| refusal.number), &Some(number))
}

fn try_write(random: &mut Random, asked: &Asked, number: u8, values: &[u16], tally: &mut Tally) -> Check {
    let before = random.bytes(50);
    let mut after = before.clone();
    let result = library::write(asked, values, &GUIDES, &[], &mut after);
    let expected = writer::write(asked, values, &GUIDES, &[], before.len());
    let what = format!("write of {asked:?}");
    counted(&what, &expected, number, tally)?;
    library::compare_write(&what, result, &expected)?;
    same(&what, &after, &before)
}

/// The walk, and the filter where the refusal is not about the start.
fn try_way(
    random: &mut Random,
    file: &[u8],
    frame: &Frame,
    way: u32,
    start: (usize, usize),
    number: u8,
    tally: &mut Tally,
) -> Check {
    let stores = Way::ALL.map(|way| Lengths::of_stores(way, &frame.settings));
    let most = |length: fn(&Lengths) -> usize| stores.iter().map(length).max().unwrap_or(0);
    let needed = Lengths {
        counts: most(|l| l.counts),
        words: most(|l| l.words),
        numbers: most(|l| l.numbers),
        summary: most(|l| l.summary),
        answers: 3,
    };
    let lengths = roomy(random, &needed);
    let before = Buffers::poisoned(random, &lengths);
    let mut after = before.clone();
    let result = library::walk(file, way, start, &[0, 0], &mut after);
    let expected = calls::walk(file, way, start, &[0, 0], &lengths);
    let what = format!("walk, way {way}");
    counted(&what, &expected, number, tally)?;
    library::compare_walk(&what, result, &expected)?;
    if number != 9 {
        let result = library::filter(file, way, &mut after);
        let expected = calls::filter(file, way, &lengths);
        let what = format!("filter, way {way}");
        counted(&what, &expected, number, tally)?;
        library::compare_filter(&what, result, &expected)?;
    }
    compare_all(&after, &before)
}

fn try_level(file: &[u8], level: u32, number: u8, tally: &mut Tally) -> Check {
    let expected = calls::balance(file, (0, 0), level);
    let what = format!("balance at level {level}");
    counted(&what, &expected, number, tally)?;
    library::compare_balance(&what, library::balance(file, (0, 0), level), &expected)
}

fn try_pixel(file: &[u8], pixel: (usize, usize), number: u8, tally: &mut Tally) -> Check {
    let expected = calls::explain(file, pixel);
    let what = format!("explanation at {pixel:?}");
    counted(&what, &expected, number, tally)?;
    library::compare_explain(&what, library::explain(file, pixel), &expected)
}
