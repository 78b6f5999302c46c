//! The writer: round trips, every refusal, and the bytes beyond the file.

use crate::library::{self, Status};
use crate::refusals::count;
use crate::tally::Tally;
use crate::{same, Check};
use sorting_filter::frame::{open, Asked, Frame, Settings, KIND_TABLE, NO_READING};
use sorting_filter::random::Random;
use sorting_filter::writer;

/// The file of a frame that the sorting filter's writer takes.
pub fn written(settings: &Settings, values: &[u16], guides: &[u16], table: &[u16]) -> Result<Vec<u8>, String> {
    let file = writer::write(&settings.asked(), values, guides, table, usize::MAX);
    file.map_err(|refusal| refusal.to_string())
}

pub fn test_writer(random: &mut Random, file: &[u8], tally: &mut Tally) -> Check {
    let frame = open(file).map_err(|refusal| refusal.to_string())?;
    let asked = frame.settings.asked();
    let written = try_write(random, &asked, &frame, 0, tally)?.ok_or("the writer refused an accepted frame")?;
    same("the frame read back", &open(&written), &Ok(frame.clone()))?;
    same("check of a written frame", &library::check(&written), &Status::ACCEPTED)?;
    let (mut spoilt, mut asked) = (frame, asked);
    spoil(random, &mut asked, &mut spoilt);
    let missing = if random.once_in(4) { 1 + random.below(30) } else { 0 };
    try_write(random, &asked, &spoilt, missing, tally).map(drop)
}

/// Heavy tables: each is accepted and read back, and number 7 is of the planes before it.
pub fn test_heavy(random: &mut Random, tally: &mut Tally) -> Check {
    let settings = Settings { width: 2, height: 1, levels: 8, guides: 2, kind: KIND_TABLE, radius: 7, smoothing: 0 };
    let asked = settings.asked();
    for weight in [256, 257, 32_767, 32_768, 65_535] {
        let mut frame = Frame { settings, values: vec![2, 6], guides: vec![0, 1], table: vec![1, 1, 1, weight] };
        let written = try_write(random, &asked, &frame, 0, tally)?.ok_or(format!("weight {weight} refused"))?;
        same("the heavy table read back", &open(&written), &Ok(frame.clone()))?;
        same("check of a heavy table", &library::check(&written), &Status::ACCEPTED)?;
        frame.guides[1] = 2;
        same("guide 2 written", &try_write(random, &asked, &frame, 0, tally)?, &None)?;
        frame.values[1] = 8;
        same("value 8 written", &try_write(random, &asked, &frame, 0, tally)?, &None)?;
    }
    Ok(())
}

/// Dead pixels at each place, alone and all: each is accepted and read back. Other numbers that are no level are
/// refused, as is 65,535 for a guide.
pub fn test_dead(random: &mut Random, tally: &mut Tally) -> Check {
    let settings = Settings { width: 5, height: 1, levels: 8, guides: 2, kind: KIND_TABLE, radius: 1, smoothing: 0 };
    let asked = settings.asked();
    let right = Frame { settings, values: vec![2, 6, 0, 7, 3], guides: vec![0, 1, 1, 0, 1], table: vec![] };
    for pixel in 0..settings.pixels() {
        let mut frame = right.clone();
        frame.values[pixel] = NO_READING;
        test_round_trip(random, &frame, tally)?;
        for value in [settings.levels, 1_024, 32_767, 65_279, 65_533, 65_534] {
            frame.values[pixel] = value;
            same(&format!("value {value} written"), &try_write(random, &asked, &frame, 0, tally)?, &None)?;
        }
        frame.values.fill(NO_READING);
        frame.guides[pixel] = NO_READING;
        same("guide 65535 written", &try_write(random, &asked, &frame, 0, tally)?, &None)?;
    }
    test_round_trip(random, &Frame { values: vec![NO_READING; settings.pixels()], ..right }, tally)
}

fn test_round_trip(random: &mut Random, frame: &Frame, tally: &mut Tally) -> Check {
    let written = try_write(random, &frame.settings.asked(), frame, 0, tally)?.ok_or("a dead pixel refused")?;
    same("dead pixels read back", &open(&written), &Ok(frame.clone()))?;
    same("check of dead pixels", &library::check(&written), &Status::ACCEPTED)
}

/// Writes with an output longer than needed, or `missing` bytes too short; the file if there is one.
fn try_write(
    random: &mut Random,
    asked: &Asked,
    frame: &Frame,
    missing: usize,
    tally: &mut Tally,
) -> Result<Option<Vec<u8>>, String> {
    let Frame { values, guides, table, .. } = frame;
    let needed = 2 * (values.len() + guides.len() + table.len()) + 28;
    let room = if missing > 0 { needed.saturating_sub(missing) } else { needed + 1 + random.below(9) };
    let before = random.bytes(room);
    let mut after = before.clone();
    let result = library::write(asked, values, guides, table, &mut after);
    let expected = writer::write(asked, values, guides, table, room);
    library::compare_write("writer", result, &expected)?;
    let mut whole = before;
    if let Ok(file) = &expected {
        whole[..file.len()].copy_from_slice(file);
        tally.written += 1;
        tally.dead.written += u64::from(values.contains(&NO_READING));
    }
    if after != whole {
        return Err("written bytes differ".to_string());
    }
    count(&expected, tally);
    Ok(expected.ok())
}

/// One or two mistakes in settings, lengths or contents.
fn spoil(random: &mut Random, k: &mut Asked, frame: &mut Frame) {
    for _ in 0..1 + random.below(2) {
        // A bit above the trailer's 16 or 8: cut down, the number would pass.
        let (above_16, above_8) = (1 << (16 + random.below(16)), 1 << (8 + random.below(24)));
        match random.below(12) {
            0 => k.width = random.pick(&[0, 1025, k.width + 1, k.width | above_16]),
            1 => k.height = random.pick(&[0, 1025, k.height + 1, k.height | above_16]),
            2 => (k.width, k.height) = random.pick(&[(1024, 257), (65_536, 65_536), (1 << 31, 1 << 31)]),
            3 => k.levels = random.pick(&[0, 1, 1025, k.levels | above_16]),
            4 => k.guides = random.pick(&[0, 1, 257, k.guides | above_16]),
            5 => k.kind = random.pick(&[0, 3, 255, k.kind | above_8]),
            6 => k.smoothing = random.pick(&[0, 1, 65_026, k.smoothing | above_16]),
            7 => k.radius = random.pick(&[16, 255, k.radius | above_8]),
            8 => lengthen_or_cut(random, &mut frame.values),
            9 => lengthen_or_cut(random, &mut frame.guides),
            10 => lengthen_or_cut(random, &mut frame.table),
            _ => spoil_contents(random, frame),
        }
    }
}

fn lengthen_or_cut(random: &mut Random, part: &mut Vec<u16>) {
    if random.once_in(2) || part.pop().is_none() {
        part.push(0);
    }
}

/// A number too large in a plane or in both, or a dead pixel, and any numbers in the table.
fn spoil_contents(random: &mut Random, frame: &mut Frame) {
    let bounds = [frame.settings.levels, frame.settings.guides];
    for (plane, bound) in [&mut frame.values, &mut frame.guides].into_iter().zip(bounds) {
        if !plane.is_empty() && random.once_in(2) {
            let place = random.below(plane.len());
            plane[place] = random.pick(&[bound, 65_533, 65_534, 65_535]);
        }
    }
    frame.table.fill_with(|| random.bits() as u16);
}
