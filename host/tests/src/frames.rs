//! Accepted frames: walks and filters in every serving way, balances, explanations, tolerances, byte planes and cameras.

use crate::buffers::{compare, Buffers};
use crate::byte_planes;
use crate::cameras;
use crate::explain;
use crate::library::{self, Status};
use crate::overlap;
use crate::tally::Tally;
use crate::tolerance;
use crate::writing::written;
use crate::{same, Check};
use sorting_filter::calls;
use sorting_filter::cases;
use sorting_filter::frame::{locate, open, Frame, Settings, KIND_GUIDED, KIND_TABLE, NO_READING};
use sorting_filter::random::{accepted_file, accepted_file_of, damage_table, moves, settings, start, Random};
use sorting_filter::random::{random_guides, random_values};
use sorting_filter::store::{Lengths, Stores, Way, BLOCK_LEVELS};
use sorting_filter::walk::is_mark;
use sorting_filter::window::{reach, Window};

/// Sides of most pictures; sides of those that hold a whole window of the largest radius; the longest list.
const SIDE: u16 = 12;
const WIDE_SIDE: u16 = 40;
const MOVES: usize = 120;

/// Tests every call on a new accepted frame and hands the frame's bytes on.
pub fn test_random(random: &mut Random, tally: &mut Tally) -> Result<Vec<u8>, String> {
    let side = if random.once_in(50) { WIDE_SIDE } else { SIDE };
    let file = accepted_file(random, side);
    test_accepted(random, &file, tally)?;
    Ok(file)
}

/// Frames whose planes overlap, up to the largest that the program takes.
pub fn test_overlapping(random: &mut Random, tally: &mut Tally) -> Check {
    overlap::accepted(random).iter().try_for_each(|file| test_accepted(random, file, tally))
}

/// The limits of document 01 that random frames do not reach: the largest frames of both kinds, and the
/// longest list on a picture of one pixel.
pub fn test_largest(random: &mut Random, tally: &mut Tally) -> Check {
    for (kind, smoothing) in [(KIND_TABLE, 0), (KIND_GUIDED, 64)] {
        let settings = Settings { width: 1024, height: 256, levels: 1024, guides: 256, kind, radius: 1, smoothing };
        let file = accepted_file_of(random, &settings);
        test_accepted(random, &file, tally)?;
        let file = accepted_file_of(random, &Settings { width: 1, height: 1, ..settings });
        let moves = random.bytes(calls::MOVES_MOST);
        for way in [Way::Joint, Way::Coarse] {
            test_walk(random, &file, way, &moves, tally)?;
        }
    }
    Ok(())
}

/// A table whose bytes are damaged is a table: the file is accepted and every call follows the weights that
/// stand there.
pub fn test_damaged_table(random: &mut Random, file: &[u8], tally: &mut Tally) -> Check {
    let mut damaged = file.to_vec();
    if !damage_table(random, &mut damaged) {
        return Ok(());
    }
    tally.damaged_tables += 1;
    test_accepted(random, &damaged, tally).map_err(|error| format!("damaged table: {error}"))
}

/// The largest weights and those about 32,768 on pictures that hold a whole window of the largest radius, with
/// every pixel above the first cut or by chance.
pub fn test_heavy(random: &mut Random, tally: &mut Tally) -> Check {
    let (side, centre) = (33, 16);
    let sizes = [vec![65_535], vec![32_768], vec![32_767, 32_768], vec![0, 65_535], vec![1, 32_767, 32_768, 65_535]];
    let counts = [(8, 2), (16, 64), (17, 65), (8, 256), (40, 256)];
    for (weights, (levels, guides)) in sizes.iter().zip(counts) {
        let settings =
            Settings { width: side, height: side, levels, guides, kind: KIND_TABLE, radius: 15, smoothing: 0 };
        let table: Vec<u16> = (0..settings.table_weights()).map(|_| random.pick(weights)).collect();
        let alike = (vec![settings.levels - 1; settings.pixels()], vec![guides - 1; settings.pixels()]);
        let by_chance = (random_values(random, &settings), random_guides(random, &settings));
        for (values, guides) in [alike, by_chance] {
            let file = written(&settings, &values, &guides, &table)?;
            test_accepted(random, &file, tally)?;
            let moves = moves(random, &settings, MOVES);
            for way in [Way::Joint, Way::Coarse] {
                test_walk_from(random, &file, way, (centre, centre), &moves, tally)?;
            }
            let frame = open(&file).map_err(|refusal| refusal.to_string())?;
            explain::test_at(&file, &frame, (centre, centre), tally)?;
            for level in 0..u32::from(settings.levels) {
                try_balance(&file, (centre, centre), level, tally)?;
            }
        }
    }
    Ok(())
}

/// Level counts about the ends of the coarse way's blocks, in both kinds, and every window of frames in which
/// a block's weights may sum to less than 0.
pub fn test_blocks(random: &mut Random, tally: &mut Tally) -> Check {
    for levels in [2, 15, 16, 17, 31, 32, 33, 63, 64, 65, 255, 257, 1008, 1009, 1023, 1024] {
        for kind in [KIND_TABLE, KIND_GUIDED] {
            let mut settings = settings(random, SIDE);
            (settings.levels, settings.kind) = (levels, kind);
            settings.smoothing = if kind == KIND_GUIDED { random.within(1, 64) } else { 0 };
            let file = accepted_file_of(random, &settings);
            test_accepted(random, &file, tally).map_err(|error| format!("{levels} levels: {error}"))?;
        }
        test_lonely(random, levels, tally).map_err(|error| format!("{levels} levels, lonely guides: {error}"))?;
    }
    Ok(())
}

/// The summary of each window of a frame with lonely guides.
fn test_lonely(random: &mut Random, levels: u16, tally: &mut Tally) -> Check {
    let (settings, file) = lonely(random, levels, 1)?;
    test_accepted(random, &file, tally)?;
    for pixel in 0..settings.pixels() {
        test_walk_from(random, &file, Way::Coarse, place(&settings, pixel), &[], tally)?;
    }
    Ok(())
}

/// Levels by chance under guides with a few lonely ones at both ends, whose windows are not steady.
pub fn lonely(random: &mut Random, levels: u16, radius: u8) -> Result<(Settings, Vec<u8>), String> {
    let settings = Settings { width: 7, height: 5, levels, guides: 16, kind: KIND_GUIDED, radius, smoothing: 1 };
    let values: Vec<u16> = (0..settings.pixels()).map(|_| random.within(0, levels - 1)).collect();
    let guides: Vec<u16> = (0..settings.pixels()).map(|_| random.pick(&[0, 15, 7, 7, 7, 7, 7])).collect();
    Ok((settings, written(&settings, &values, &guides, &[])?))
}

pub fn test_accepted(random: &mut Random, file: &[u8], tally: &mut Tally) -> Check {
    let frame = open(file).map_err(|refusal| format!("the generator made a bad file: {refusal}"))?;
    tally.frames[usize::from(frame.settings.kind == KIND_GUIDED)] += 1;
    tally.heavy_tables += u64::from(frame.table.iter().any(|&weight| weight >= 32_768));
    tally.dead.count_frame(&frame);
    count_overlap(file, tally);
    let untouched = file.to_vec();
    same("check", &library::check(file), &Status::ACCEPTED)?;
    let mut plane = Vec::new();
    for way in Way::ALL.into_iter().filter(|way| way.serves(frame.settings.kind)) {
        let moves = moves(random, &frame.settings, MOVES);
        test_walk(random, file, way, &moves, tally).map_err(|error| format!("walk, {way:?}: {error}"))?;
        plane = test_filter(random, file, &frame, way, tally).map_err(|error| format!("filter, {way:?}: {error}"))?;
    }
    test_balance(random, file, &frame, tally)?;
    explain::test(random, file, &frame, &plane, tally)?;
    tolerance::test(random, file, &frame, tally)?;
    byte_planes::test(random, file, tally)?;
    cameras::test(random, file, &frame, tally)?;
    same("the file after the calls", &file, &untouched.as_slice())
}

fn count_overlap(file: &[u8], tally: &mut Tally) {
    let Ok((settings, places)) = locate(file) else { return };
    match places.overlap(&settings) {
        None => {}
        Some(0) => tally.overlapping.same_start += 1,
        Some(apart) if apart % 2 == 0 => tally.overlapping.even_apart += 1,
        Some(_) => tally.overlapping.odd_apart += 1,
    }
}

/// The list of small walks, each in every serving way, every pixel of their frames explained, the frames with upper
/// levels, split, and among other frames: the bench windows A to H, chosen shapes, and every start of small frames with moves into the
/// border and unknown bytes.
pub fn test_listed(random: &mut Random, tally: &mut Tally) -> Check {
    for case in cases::read(include_str!("../../cases.txt"))? {
        let frame = open(&case.file).map_err(|refusal| format!("{}: {refusal}", case.name))?;
        for way in Way::ALL.into_iter().filter(|way| way.serves(frame.settings.kind)) {
            test_walk_from(random, &case.file, way, (case.column, case.row), &case.moves, tally)
                .map_err(|error| format!("{}, {way:?}: {error}", case.name))?;
            tally.listed += 1;
        }
        tolerance::test(random, &case.file, &frame, tally)
            .and_then(|()| byte_planes::test(random, &case.file, tally))
            .and_then(|()| cameras::test(random, &case.file, &frame, tally))
            .map_err(|error| format!("{}: {error}", case.name))?;
        for pixel in 0..frame.settings.pixels() {
            explain::test_at(&case.file, &frame, place(&frame.settings, pixel), tally)
                .map_err(|error| format!("{}: {error}", case.name))?;
        }
    }
    Ok(())
}

fn test_walk(random: &mut Random, file: &[u8], way: Way, moves: &[u8], tally: &mut Tally) -> Check {
    let frame = open(file).map_err(|refusal| refusal.to_string())?;
    let start = start(random, &frame.settings);
    test_walk_from(random, file, way, start, moves, tally)
}

pub fn test_walk_from(
    random: &mut Random,
    file: &[u8],
    way: Way,
    start: (usize, usize),
    moves: &[u8],
    tally: &mut Tally,
) -> Check {
    let frame = open(file).map_err(|refusal| refusal.to_string())?;
    count_window(&frame, start, tally);
    let needed = Lengths { answers: 1 + moves.len(), ..Lengths::of_stores(way, &frame.settings) };
    let before = Buffers::poisoned_beyond(random, &needed);
    let mut after = before.clone();
    let result = library::walk(file, way.number(), start, moves, &mut after);
    let expected = calls::walk(file, way.number(), start, moves, &before.lengths());
    library::compare_walk("result", result, &expected)?;
    let walked = expected.map_err(|refusal| refusal.to_string())?;
    tally.walks += 1;
    tally.answers += walked.answers.len() as u64;
    tally.marks += walked.answers.iter().filter(|&&answer| is_mark(answer)).count() as u64;
    compare(&before, after, &walked, &needed)?;
    tally.hollow.starts[usize::from(way == Way::Coarse)] += u64::from(walked.hollow[0]);
    count_hollow(way, &walked, tally);
    tally.dead.starts[place_of(way)] += u64::from(walked.empty[0]);
    count_dead(&frame, way, &walked, tally);
    count_summary(&frame, &walked, tally);
    if random.once_in(4) {
        test_wrapper_walk(file, way, start, moves, &walked, &needed)?;
    }
    Ok(())
}

fn count_window(frame: &Frame, (column, row): (usize, usize), tally: &mut Tally) {
    let window = Window::at(frame, column, row);
    if frame.settings.kind == KIND_TABLE {
        tally.heaviest = tally.heaviest.max(window.total());
        let centre = frame.guide(column, row);
        tally.hollow.almost += u64::from(frame.table_weight(centre, centre) == 0 && !window.hollow());
    }
    tally.negative += u64::from(window.has_negative_weight());
    tally.unsteady += u64::from(!window.steady());
    let k = &frame.settings;
    let whole = reach(column, k.radius, k.width).count() * reach(row, k.radius, k.height).count();
    if window.pixels.len() < whole {
        tally.dead.hollow += u64::from(window.hollow());
        tally.dead.unsteady += u64::from(!window.steady());
    }
}

/// A way's place among four counts.
fn place_of(way: Way) -> usize {
    way.number() as usize - 1
}

fn count_dead(frame: &Frame, way: Way, walked: &calls::Walked, tally: &mut Tally) {
    let (tally, place) = (&mut tally.dead, place_of(way));
    let empty = &walked.empty;
    let moves = |from: bool, to: bool| empty.windows(2).filter(|pair| *pair == [from, to]).count() as u64;
    let dead = walked.visited.iter().filter(|&&(column, row)| frame.level(column, row).is_none()).count() as u64;
    let without = empty.iter().filter(|&&empty| empty).count() as u64;
    tally.empty[place] += without;
    // The centre of an empty window is dead too.
    tally.centres[place] += dead - without;
    tally.ends[place] += u64::from(empty[empty.len() - 1]);
    tally.entered[place] += moves(false, true);
    tally.left[place] += moves(true, false);
    if way == Way::Columns {
        let (column, row) = walked.visited[walked.visited.len() - 1];
        let k = &frame.settings;
        let columns = reach(column, k.radius, k.width);
        let beside = |t: usize| (0..usize::from(k.width)).any(|s| !columns.contains(&s) && frame.level(s, t).is_none());
        tally.beside += u64::from(reach(row, k.radius, k.height).any(beside));
    }
}

fn count_hollow(way: Way, walked: &calls::Walked, tally: &mut Tally) {
    let (tally, place) = (&mut tally.hollow, usize::from(way == Way::Coarse));
    let windows = &walked.hollow;
    let moves = |from: bool, to: bool| windows.windows(2).filter(|pair| *pair == [from, to]).count() as u64;
    tally.windows[place] += windows.iter().filter(|&&hollow| hollow).count() as u64;
    tally.ends[place] += u64::from(windows[windows.len() - 1]);
    tally.entered[place] += moves(false, true);
    tally.left[place] += moves(true, false);
}

fn count_summary(frame: &Frame, walked: &calls::Walked, tally: &mut Tally) {
    let Stores::Coarse { summary, .. } = &walked.stores else { return };
    let coarse = &mut tally.coarse;
    coarse.walks += 1;
    coarse.one_block += u64::from(summary.len() == 1);
    coarse.short_block += u64::from(frame.settings.levels % BLOCK_LEVELS != 0);
    coarse.negative += u64::from(summary.iter().any(|&sum| sum < 0));
}

/// The filter; the plane that the library filters the frame to.
fn test_filter(
    random: &mut Random,
    file: &[u8],
    frame: &Frame,
    way: Way,
    tally: &mut Tally,
) -> Result<Vec<u16>, String> {
    let needed = Lengths { answers: frame.settings.pixels(), ..Lengths::of_stores(way, &frame.settings) };
    let before = Buffers::poisoned_beyond(random, &needed);
    let mut after = before.clone();
    let result = library::filter(file, way.number(), &mut after);
    let expected = calls::filter(file, way.number(), &before.lengths());
    library::compare_filter("result", result, &expected)?;
    let walked = expected.map_err(|refusal| refusal.to_string())?;
    tally.filters += 1;
    tally.answers += walked.answers.len() as u64;
    count_hollow(way, &walked, tally);
    count_dead(frame, way, &walked, tally);
    if random.once_in(4) {
        test_wrapper_filter(file, way, &walked)?;
    }
    let plane = after.answers[..needed.answers].to_vec();
    compare(&before, after, &walked, &needed)?;
    Ok(plane)
}

fn wrapper_way(way: Way) -> icemedian::Way {
    match way {
        Way::Joint => icemedian::Way::Joint,
        Way::Columns => icemedian::Way::Columns,
        Way::Chain => icemedian::Way::Chain,
        Way::Coarse => icemedian::Way::Coarse,
    }
}

/// The Rust wrapper computes buffer lengths of its own, and hands out the stores of the last window.
fn test_wrapper_walk(
    file: &[u8],
    way: Way,
    start: (usize, usize),
    moves: &[u8],
    expected: &calls::Walked,
    needed: &Lengths,
) -> Check {
    let walked = icemedian::walk(file, wrapper_way(way), start, moves).map_err(|refusal| refusal.to_string())?;
    let icemedian::Stores { counts, words, numbers, summary } = walked.stores;
    let after = Buffers { counts, words, numbers, summary, answers: walked.answers };
    same("wrapper's lengths", &after.lengths(), needed)?;
    compare(&after.clone(), after, expected, needed).map_err(|error| format!("wrapper's {error}"))?;
    let end = (expected.shifts, expected.cut, expected.balance_box);
    same("wrapper's end", &(walked.end.shifts, walked.end.cut, walked.end.balance_box), &end)
}

fn test_wrapper_filter(file: &[u8], way: Way, expected: &calls::Walked) -> Check {
    let filtered = icemedian::filter(file, wrapper_way(way)).map_err(|refusal| refusal.to_string())?;
    same("wrapper's levels", &filtered.levels, &expected.answers)?;
    let readings: Vec<u16> = filtered.readings().map(|level| level.unwrap_or(NO_READING)).collect();
    same("wrapper's readings", &readings, &expected.answers)?;
    same("wrapper's shifts", &filtered.shifts, &expected.shifts)
}

/// Balances: every level of small frames at every pixel, a few elsewhere.
fn test_balance(random: &mut Random, file: &[u8], frame: &Frame, tally: &mut Tally) -> Check {
    let k = &frame.settings;
    for index in tries(random, k.pixels() * usize::from(k.levels)) {
        let (pixel, level) = (index / usize::from(k.levels), (index % usize::from(k.levels)) as u32);
        try_balance(file, place(k, pixel), level, tally)?;
    }
    Ok(())
}

/// Every number below `all` where they are few, else some by chance.
pub fn tries(random: &mut Random, all: usize) -> Vec<usize> {
    if all <= 200 {
        (0..all).collect()
    } else {
        (0..6).map(|_| random.below(all)).collect()
    }
}

/// Column and row of a pixel, which are counted row by row.
pub fn place(settings: &Settings, pixel: usize) -> (usize, usize) {
    let width = usize::from(settings.width);
    (pixel % width, pixel / width)
}

pub fn try_balance(file: &[u8], place: (usize, usize), level: u32, tally: &mut Tally) -> Check {
    let expected = calls::balance(file, place, level);
    tally.balances += 1;
    let frame = open(file).map_err(|refusal| refusal.to_string())?;
    let window = Window::at(&frame, place.0, place.1);
    tally.hollow.balances += u64::from(window.hollow());
    tally.dead.balances += u64::from(window.empty());
    library::compare_balance("balance", library::balance(file, place, level), &expected)
}
