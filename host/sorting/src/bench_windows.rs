//! Document 01's bench windows A to H, D as document 02's request 3 has it, its edges and its 40-byte frame, rows of
//! hollow windows, of dead pixels, of the coarse way, of tolerances, of byte planes and of several cameras, what explains
//! them, and a few rows more.

use crate::byte_planes::{join, join_plane, split, split_plane};
use crate::calls;
use crate::cameras::{cameras, schedule, Cameras};
use crate::cases::bytes_of_hex;
use crate::explain::{Cause, Explanation};
use crate::frame::{built_in_weight, open, Asked, Frame, Settings, KIND_GUIDED, KIND_TABLE, NO_READING};
use crate::program::printed;
use crate::random::{accepted_file, Random};
use crate::refusal::Refusal;
use crate::store::{balance_box, stores, summary, ChainEntry, Lengths, Stores, Way, BLOCK_LEVELS, BOX_CELLS};
use crate::tolerance::{self, both, tolerance, Tolerated};
use crate::walk::{filter, walk, Walk};
use crate::window::Window;
use crate::writer::write;

/// The 40 bytes of document 01.
const A: &str = "000500010003000000000002000300010008000402010001\
                 0000000C000000060000000049434531";

fn frame_a() -> Frame {
    open(&bytes_of_hex(A).unwrap()).unwrap()
}

/// A frame of one row.
fn row(kind: u8, levels: u16, guides: u16, radius: u8, values: &[u16], guide: &[u16], table: &[u16]) -> Frame {
    let settings = Settings {
        width: values.len() as u16,
        height: 1,
        levels,
        guides,
        kind,
        radius,
        smoothing: u16::from(kind == KIND_GUIDED),
    };
    open(&write(&settings.asked(), values, guide, table, usize::MAX).unwrap()).unwrap()
}

/// The frame written without gaps.
fn file_of(frame: &Frame) -> Vec<u8> {
    write(&frame.settings.asked(), &frame.values, &frame.guides, &frame.table, usize::MAX).unwrap()
}

fn frame_b() -> Frame {
    b_with(&[1, 2, 5, 3, 4])
}

/// B with other values.
fn b_with(values: &[u16]) -> Frame {
    row(KIND_GUIDED, 8, 16, 2, values, &[7, 7, 15, 7, 0], &[])
}

fn frame_c(weight: u16) -> Frame {
    row(KIND_TABLE, 8, 2, 1, &[2, 6], &[0, 0], &[weight; 4])
}

fn filtered(frame: &Frame) -> (Vec<u16>, u64) {
    let (plane, walk) = filter(frame);
    (plane, walk.shifts)
}

fn weights(window: &Window) -> Vec<i64> {
    window.pixels.iter().map(|pixel| pixel.own_weight).collect()
}

/// Which windows of a frame of one row are hollow.
fn hollow(frame: &Frame) -> Vec<bool> {
    filter(frame).1.hollow
}

#[test]
fn a_weighs_and_filters() {
    assert_eq!(weights(&Window::at(&frame_a(), 1, 0)), [21, 21, 9]);
    assert_eq!(filtered(&frame_a()), (vec![1, 3, 3], 3));
}

#[test]
fn b_has_a_negative_weight_and_two_crossings() {
    let window = Window::at(&frame_b(), 2, 0);
    assert_eq!(weights(&window), [550, 550, 2110, 550, -815]);
    assert_eq!(window.total(), 2945);
    assert_eq!(window.answer(), 3);
    assert_eq!([3, 4, 5].map(|level| window.balance(level)), [355, -1275, 2945]);
    assert!(!window.steady());
    assert_eq!(filtered(&frame_b()), (vec![2, 2, 3, 3, 4], 9));
}

#[test]
fn c_takes_at_least_half() {
    assert_eq!(filtered(&frame_c(1)), (vec![2, 2], 2));
}

#[test]
fn d_is_hollow_and_counts_ones() {
    let d = frame_c(0);
    assert_eq!(hollow(&d), [true, true]);
    assert_eq!(filtered(&d), (vec![2, 2], 2));
    let window = Window::at(&d, 0, 0);
    assert_eq!(weights(&window), [0, 0]);
    assert_eq!([1, 2, 5, 6].map(|level| window.balance(level)), [-2, 0, 0, 2]);
}

#[test]
fn a_hollow_window_moves_the_cut() {
    let frame = row(KIND_TABLE, 8, 2, 1, &[7, 2, 4], &[0, 1, 0], &[1, 1, 0, 0]);
    assert_eq!(hollow(&frame), [false, true, false]);
    assert_eq!(filtered(&frame), (vec![2, 4, 2], 6));
    assert_eq!(walk(&frame, 0, 0, &[0]).cut, 4);
}

#[test]
fn a_lamp_alone_in_its_guide_class_is_filtered() {
    let frame = row(KIND_TABLE, 8, 2, 1, &[2, 7, 4], &[0, 1, 0], &[1, 0, 0, 0]);
    assert_eq!(hollow(&frame), [false, true, false]);
    assert_eq!(filtered(&frame), (vec![2, 4, 4], 4));
    let window = Window::at(&frame, 1, 0);
    assert_eq!([2, 4, 7].map(|level| window.balance(level)), [-1, 1, 3]);
}

#[test]
fn no_window_of_kind_2_or_of_built_in_weights_is_hollow() {
    let mut random = Random::new(8);
    let mut kinds = [0, 0];
    for _ in 0..600 {
        let frame = open(&accepted_file(&mut random, 6)).unwrap();
        if frame.table.is_empty() {
            assert!(!Window::at(&frame, 0, 0).hollow());
            kinds[usize::from(frame.settings.kind == KIND_GUIDED)] += 1;
        }
    }
    assert!(kinds.iter().all(|&frames| frames > 20), "{kinds:?}");
}

#[test]
fn e_is_the_input() {
    let mut frame = frame_a();
    frame.settings.radius = 0;
    assert_eq!(filtered(&frame).0, [5, 1, 3]);
}

#[test]
fn f_built_in_weights() {
    assert_eq!([0, 1, 16, 255].map(built_in_weight), [256, 240, 128, 15]);
}

#[test]
fn g_leaves_a_picture_of_one_pixel() {
    let frame = row(KIND_TABLE, 8, 2, 1, &[2], &[0], &[1; 4]);
    let walk = walk(&frame, 0, 0, &[0, 1, 2, 3]);
    assert_eq!(walk.answers, [2, 65_534, 65_534, 65_534, 65_534]);
    assert_eq!(walk.shifts, 2);
}

#[test]
fn h_walks_into_the_border() {
    let walk = walk(&frame_a(), 0, 0, &[0, 2, 0, 1]);
    assert_eq!(walk.answers, [1, 3, 65_534, 3, 3]);
    assert_eq!(walk.shifts, 3);
    assert_eq!(walk.visited, [(0, 0), (1, 0), (2, 0), (1, 0)]);
}

#[test]
fn the_centre_chooses_the_tables_row() {
    let frame = row(KIND_TABLE, 8, 2, 1, &[2, 6], &[0, 1], &[1, 2, 0, 1]);
    assert_eq!(filtered(&frame), (vec![6, 6], 6));
}

#[test]
fn an_unknown_byte_moves_nothing() {
    let walk = walk(&frame_a(), 0, 0, &[7, 0, 255, 0]);
    assert_eq!(walk.answers, [1, 65_533, 3, 65_533, 3]);
    assert_eq!(walk.shifts, 3);
}

#[test]
fn the_program_prints_document_01s_text() {
    let file = bytes_of_hex(A).unwrap();
    assert_eq!(printed(&file), "3 1\n1 3 3\njoint 3\ncolumns 3\nchain 3\ncoarse 7\n");
    let kind_1 = write(&frame_c(1).settings.asked(), &[2, 6], &[0, 0], &[1; 4], usize::MAX).unwrap();
    assert_eq!(printed(&kind_1), "2 1\n2 2\njoint 2\ncoarse 4\n");
    assert_eq!(printed(&[]), "refused 1\n");
    assert_eq!(printed(&[0; 16_385]), "refused 12\n");
    let bad_guide = [&file[..6], &[0, 9], &file[8..]].concat();
    assert_eq!(printed(&bad_guide), "refused 7 6\n");
    let frame = frame_a().settings;
    let sides = [Settings { width: 65, ..frame }, Settings { levels: 65, ..frame }, Settings { guides: 65, ..frame }];
    for settings in sides {
        let plane = vec![0; settings.pixels()];
        let file = write(&settings.asked(), &plane, &plane, &[], usize::MAX).unwrap();
        assert_eq!(printed(&file), "refused 12\n");
    }
    let tall = Settings { height: 65, ..frame };
    let plane = vec![0; tall.pixels()];
    let file = write(&tall.asked(), &plane, &plane, &[], usize::MAX).unwrap();
    assert!(printed(&file).starts_with("3 65\n0 0 0\n"));
    let dead = write(&mostly_dead().settings.asked(), &mostly_dead().values, &[0; 4], &[1; 4], usize::MAX).unwrap();
    assert_eq!(printed(&dead), "4 1\n65535 65535 5 5\njoint 5\ncoarse 10\n");
}

/// A's settings with every pixel 0, written and opened again.
fn accepted(change: impl Fn(&mut Settings)) -> Result<(), u8> {
    let mut settings = frame_a().settings;
    change(&mut settings);
    let plane = vec![0; settings.pixels()];
    let file = write(&settings.asked(), &plane, &plane, &[], usize::MAX).map_err(|refusal| refusal.number)?;
    open(&file).map(drop).map_err(|refusal| refusal.number)
}

#[test]
fn edges_of_the_settings() {
    assert_eq!(accepted(|s| (s.width, s.height) = (1024, 256)), Ok(()));
    assert_eq!(accepted(|s| (s.width, s.height) = (1024, 257)), Err(2));
    assert_eq!(accepted(|s| s.radius = 15), Ok(()));
    assert_eq!(accepted(|s| s.radius = 16), Err(5));
    assert_eq!(accepted(|s| s.smoothing = 65_025), Ok(()));
    assert_eq!(accepted(|s| s.smoothing = 65_026), Err(4));
}

/// A's numbers with one that the trailer could not hold.
fn refused_wide(change: impl Fn(&mut Asked)) -> Option<u8> {
    let a = frame_a();
    let mut asked = a.settings.asked();
    change(&mut asked);
    write(&asked, &a.values, &a.guides, &[], usize::MAX).err().map(|refusal| refusal.number)
}

#[test]
fn no_number_is_cut_down() {
    assert_eq!(refused_wide(|_| ()), None);
    assert_eq!(refused_wide(|a| a.width += 65_536), Some(2));
    assert_eq!(refused_wide(|a| a.height = u32::MAX), Some(2));
    assert_eq!(refused_wide(|a| a.levels += 65_536), Some(3));
    assert_eq!(refused_wide(|a| a.guides += 65_536), Some(3));
    assert_eq!(refused_wide(|a| a.kind += 256), Some(4));
    assert_eq!(refused_wide(|a| a.smoothing += 65_536), Some(4));
    assert_eq!(refused_wide(|a| (a.kind, a.smoothing) = (1, 65_536)), Some(4));
    assert_eq!(refused_wide(|a| a.radius += 256), Some(5));
}

/// C's planes with one number of each changed, under a table whose last weight is `weight`.
fn written_c(value: u16, guide: u16, weight: u16) -> Result<Vec<u8>, Refusal> {
    write(&frame_c(1).settings.asked(), &[2, value], &[0, guide], &[1, 1, 1, weight], usize::MAX)
}

#[test]
fn a_weight_may_be_any_number() {
    for weight in [0, 256, 257, 32_767, 32_768, 65_535] {
        let table = [1, 1, 1, weight];
        assert_eq!(open(&written_c(6, 1, weight).unwrap()).unwrap().table, table);
        let mut file = written_c(6, 1, 0).unwrap();
        file[14..16].copy_from_slice(&weight.to_be_bytes());
        assert_eq!(open(&file).unwrap().table, table);
    }
}

#[test]
fn check_7_is_of_the_planes_before_a_heavy_table() {
    assert_eq!(written_c(8, 2, 65_535), Err(Refusal::contents(2)));
    assert_eq!(written_c(6, 2, 65_535), Err(Refusal::contents(6)));
    let with = |place: usize, byte: u8| {
        let mut file = written_c(6, 0, 65_535).unwrap();
        file[place] = byte;
        open(&file).map(drop)
    };
    assert_eq!(with(3, 8), Err(Refusal::contents(2)));
    assert_eq!(with(7, 2), Err(Refusal::contents(6)));
    assert_eq!(with(8, 255), Ok(()));
}

#[test]
fn a_heavy_table_weighs_and_filters() {
    let frame = row(KIND_TABLE, 8, 2, 1, &[1, 5, 3], &[0, 1, 0], &[65_535, 257, 1, 65_535]);
    assert_eq!(filtered(&frame), (vec![1, 5, 3], 7));
    let balance = |column, level| Window::at(&frame, column, 0).balance(level);
    assert_eq!([1, 3, 5].map(|level| balance(1, level)), [-65_535, -65_533, 65_537]);
    assert_eq!([1, 5].map(|level| balance(0, level)), [65_278, 65_792]);
}

#[test]
fn the_heaviest_window() {
    let side = 31;
    let settings =
        Settings { width: side, height: side, levels: 1024, guides: 2, kind: KIND_TABLE, radius: 15, smoothing: 0 };
    let (values, guides) = (vec![1023; settings.pixels()], vec![1; settings.pixels()]);
    let file = write(&settings.asked(), &values, &guides, &[0, 0, 0, 65_535], usize::MAX).unwrap();
    let window = Window::at(&open(&file).unwrap(), 15, 15);
    assert_eq!([1022, 1023].map(|level| window.balance(level)), [-961 * 65_535, 961 * 65_535]);
    assert_eq!(window.absolute_differences(0), 1023 * 961 * 65_535);
}

#[test]
fn stores_of_a_after_its_walk() {
    let frame = frame_a();
    let walk = walk(&frame, 0, 0, &[0]);
    let Stores::Joint { counts, words } = stores(&frame, Way::Joint, &walk) else { unreachable!() };
    let occupied: Vec<usize> = (0..counts.len()).filter(|&cell| counts[cell] == 1).collect();
    assert_eq!(occupied, [4, 3 * 4 + 2, 5 * 4]);
    assert_eq!(words, [0, 1, 0, 4, 0, 1, 0, 0]);
    let Stores::Columns { numbers } = stores(&frame, Way::Columns, &walk) else { unreachable!() };
    assert_eq!(numbers.len(), Lengths::of_stores(Way::Columns, &frame.settings).numbers);
    assert_eq!(numbers[5] + numbers[8 + 1] + numbers[16 + 3], 3);
    assert_eq!(numbers[48..56], [0, 1, 0, 1, 0, 1, 0, 0]);
    assert_eq!(numbers[56..], [0, 0, 0, 2, 0, 0, 0, 0]);
    let Stores::Chain { entries } = stores(&frame, Way::Chain, &walk) else { unreachable!() };
    let entry = |level, guide_sum| ChainEntry { level, count: 1, guide_sum };
    assert_eq!(entries, [entry(1, 0), entry(3, 2), entry(5, 0)]);
}

/// The coarse way's answers, own count and summary after a walk from a pixel of the first row.
fn coarse(frame: &Frame, column: usize, moves: &[u8]) -> (Vec<u16>, u64, Vec<i64>) {
    coarse_end(frame, &walk(frame, column, 0, moves))
}

fn coarse_end(frame: &Frame, walk: &Walk) -> (Vec<u16>, u64, Vec<i64>) {
    let Stores::Coarse { summary, .. } = stores(frame, Way::Coarse, walk) else { unreachable!() };
    (walk.answers.clone(), walk.shifts_by(Way::Coarse), summary)
}

#[test]
fn the_coarse_way_has_its_own_count_and_a_summary() {
    assert_eq!(coarse(&frame_a(), 0, &[0, 2, 0, 1]), (vec![1, 3, 65_534, 3, 3], 10, vec![51]));
    assert_eq!(coarse_end(&frame_a(), &filter(&frame_a()).1).1, 7);
    // Two of B's windows are not steady.
    assert_eq!(coarse(&frame_b(), 0, &[0; 4]), (vec![2, 2, 3, 3, 4], 14, vec![1041]));
    assert_eq!(coarse(&frame_c(0), 0, &[0]), (vec![2, 2], 4, vec![2]));
    // Three blocks, the last of 8 levels.
    let row = |kind, radius, values: &[u16], guide: &[u16], guides, table: &[u16]| {
        row(kind, 40, guides, radius, values, guide, table)
    };
    let centre_row = row(KIND_TABLE, 1, &[2, 39, 17, 20], &[0, 1, 0, 1], 2, &[1, 2, 0, 1]);
    assert_eq!(filtered(&centre_row), (vec![39, 39, 20, 20], 58));
    assert_eq!(coarse(&centre_row, 0, &[0; 3]), (vec![39, 39, 20, 20], 28, vec![0, 1, 0]));
    let blocks = row(KIND_TABLE, 1, &[33, 2, 39, 17], &[0, 1, 1, 0], 2, &[1, 2, 0, 3]);
    assert_eq!(coarse(&blocks, 0, &[0; 3]), (vec![2, 2, 2, 39], 15, vec![0, 1, 2]));
    assert_eq!(coarse(&blocks, 3, &[1, 9, 1, 2]), (vec![39, 2, 65_533, 2, 65_534], 13, vec![3, 0, 3]));
    // B with its levels apart: the pixel of negative weight has a block of its own.
    let apart = row(KIND_GUIDED, 2, &[17, 34, 37, 35, 3], &[7, 7, 15, 7, 0], 16, &[]);
    assert_eq!(coarse(&apart, 0, &[0; 2]), (vec![34, 34, 37], 45, vec![-815, 550, 3210]));
    // A hollow window between two others, and a walk that ends in it.
    let between = row(KIND_TABLE, 0, &[20, 35, 31], &[0, 1, 0], 2, &[1, 0, 0, 0]);
    assert_eq!(coarse(&between, 0, &[0; 2]), (vec![20, 35, 31], 26, vec![0, 1, 0]));
    assert_eq!(coarse(&between, 0, &[0]), (vec![20, 35], 10, vec![0, 0, 1]));
    let pair = row(KIND_TABLE, 1, &[20, 35, 3, 31], &[0, 1, 1, 0], 2, &[1, 0, 0, 0]);
    assert_eq!(coarse(&pair, 3, &[1]), (vec![31, 31], 32, vec![1, 1, 1]));
}

#[test]
fn the_first_block_that_reaches_half_holds_a_steady_answer() {
    let mut random = Random::new(7);
    let (mut steady, mut later, mut hollow) = (0, 0, 0);
    for _ in 0..600 {
        let frame = open(&accepted_file(&mut random, 6)).unwrap();
        let window = Window::at(&frame, 0, 0);
        if !window.steady() || window.empty() {
            continue;
        }
        let sums = summary(&frame, &window);
        let ends = sums.iter().scan(0, |end, sum| {
            *end += sum;
            Some(*end)
        });
        let first = ends.take_while(|end| 2 * end < window.total()).count();
        assert_eq!(usize::from(window.answer() / BLOCK_LEVELS), first);
        steady += 1;
        later += u32::from(first > 0);
        hollow += u32::from(window.hollow());
    }
    assert!(steady > 100 && later > 100 && hollow > 30, "{steady} {later} {hollow}");
}

/// The explanation of a pixel of the first row: n, T, m, U(m - 1), U(m) and the cause.
fn explained(frame: &Frame, column: usize) -> (usize, i64, u16, i64, i64, Cause) {
    let Explanation { pixels, total, level, below, reached, cause } = Explanation::of(&Window::at(frame, column, 0));
    (pixels, total, level, below, reached, cause)
}

#[test]
fn b_is_explained_with_both_ends() {
    let all: Vec<_> = (0..5).map(|column| explained(&frame_b(), column)).collect();
    let expected = [
        (3, 411, 2, 201, 402, Cause::Ordinary),
        (4, 832, 2, 272, 544, Cause::Ordinary),
        (5, 2945, 3, 1100, 1650, Cause::NegativeAtZero),
        (4, 1868, 3, 468, 936, Cause::Ordinary),
        (3, 1041, 4, 369, 1200, Cause::NegativeAtLast),
    ];
    assert_eq!(all, expected);
}

#[test]
fn a_hollow_window_is_explained_by_ones() {
    assert_eq!(explained(&frame_c(0), 0), (2, 2, 2, 0, 1, Cause::Hollow));
    assert_eq!(explained(&frame_c(1), 0), (2, 2, 2, 0, 1, Cause::Ordinary));
    let lamp = row(KIND_TABLE, 8, 2, 1, &[2, 7, 4], &[0, 1, 0], &[1, 0, 0, 0]);
    assert_eq!(explained(&lamp, 0), (2, 1, 2, 0, 1, Cause::Ordinary));
    assert_eq!(explained(&lamp, 1), (3, 3, 4, 1, 2, Cause::Hollow));
    let zero_row = row(KIND_TABLE, 8, 2, 1, &[7, 2, 4], &[0, 1, 0], &[1, 1, 0, 0]);
    assert_eq!(explained(&zero_row, 0), (2, 2, 2, 0, 1, Cause::Ordinary));
    assert_eq!(explained(&zero_row, 1), (3, 3, 4, 1, 2, Cause::Hollow));
}

#[test]
fn below_level_0_nothing_weighs() {
    let frame = row(KIND_TABLE, 8, 2, 1, &[0, 3], &[0, 0], &[1; 4]);
    assert_eq!(explained(&frame, 0), (2, 2, 0, 0, 1, Cause::Ordinary));
    let hollow = row(KIND_TABLE, 8, 2, 1, &[0, 3], &[0, 0], &[0; 4]);
    assert_eq!(explained(&hollow, 1), (2, 2, 0, 0, 1, Cause::Hollow));
}

#[test]
fn heavy_windows_are_explained() {
    let frame = row(KIND_TABLE, 8, 2, 1, &[1, 5, 3], &[0, 1, 0], &[65_535, 257, 1, 65_535]);
    assert_eq!(explained(&frame, 0), (2, 65_792, 1, 0, 65_535, Cause::Ordinary));
    assert_eq!(explained(&frame, 1), (3, 65_537, 5, 2, 65_537, Cause::Ordinary));
}

/// B's pixel 2 under other levels: its last pixel weighs less than nothing.
#[test]
fn a_sum_may_be_negative_or_more_than_the_whole() {
    let explained = |values: &[u16]| explained(&b_with(values), 2);
    assert_eq!(explained(&[4, 5, 4, 5, 3]), (5, 2945, 4, -815, 1845, Cause::NegativeAtZero));
    assert_eq!(explained(&[4, 4, 4, 4, 5]), (5, 2945, 4, 0, 3760, Cause::NegativeAtZero));
}

/// Two pixels whose formula is just negative at an end, or is 0 there.
#[test]
fn a_formula_of_0_at_an_end_is_steady() {
    let cause = |guides: [u16; 2], last: u16| explained(&row(KIND_GUIDED, 8, last + 1, 1, &[3, 1], &guides, &[]), 0).5;
    assert_eq!(cause([3, 1], 4), Cause::Ordinary);
    assert_eq!(cause([4, 1], 4), Cause::NegativeAtZero);
    assert_eq!(cause([1, 3], 4), Cause::Ordinary);
    assert_eq!(cause([0, 3], 4), Cause::NegativeAtLast);
}

#[test]
fn half_is_between_the_two_sums_and_every_cause_occurs() {
    let mut random = Random::new(9);
    let mut causes = [0; 5];
    for _ in 0..2_000 {
        let frame = open(&accepted_file(&mut random, 6)).unwrap();
        let explanation = Explanation::of(&Window::at(&frame, 0, 0));
        let Explanation { pixels, total, level, below, reached, cause } = explanation;
        if cause == Cause::Empty {
            assert_eq!((pixels, total, level, below, reached), (0, 0, NO_READING, 0, 0));
        } else {
            assert!(2 * below < total && total <= 2 * reached, "{explanation:?}");
        }
        causes[explanation.cause.number() as usize - 1] += 1;
    }
    assert!(causes.iter().all(|&windows| windows > 20), "{causes:?}");
}

/// B with two dead pixels.
fn b_dead() -> Frame {
    b_with(&[1, NO_READING, 5, 3, NO_READING])
}

/// Three dead pixels before a reading: the first two windows are empty.
fn mostly_dead() -> Frame {
    row(KIND_TABLE, 8, 2, 1, &[NO_READING, NO_READING, NO_READING, 5], &[0; 4], &[1; 4])
}

#[test]
fn b_with_dead_pixels() {
    assert_eq!(filtered(&b_dead()), (vec![1, 3, 5, 3, 3], 13));
    assert_eq!(filter(&b_dead()).1.coarse_shifts, 15);
    let all: Vec<_> = (0..5).map(|column| explained(&b_dead(), column)).collect();
    let expected = [
        (2, 136, 1, 0, 132, Cause::Ordinary),
        (3, 411, 3, 201, 402, Cause::Ordinary),
        (3, 411, 5, 18, 411, Cause::NegativeAtZero),
        (2, 136, 3, 0, 132, Cause::Ordinary),
        (2, 136, 3, 0, 244, Cause::NegativeAtLast),
    ];
    assert_eq!(all, expected);
    let walk = walk(&b_dead(), 4, 0, &[]);
    let Stores::Chain { entries } = stores(&b_dead(), Way::Chain, &walk) else { unreachable!() };
    let entry = |level, guide_sum| ChainEntry { level, count: 1, guide_sum };
    assert_eq!(entries, [entry(3, 7), entry(5, 15)]);
    // The dead pixels 1 and 4 are in no column, whether it is the window's or not.
    let Stores::Columns { numbers } = stores(&b_dead(), Way::Columns, &walk) else { unreachable!() };
    let counted: Vec<usize> = (0..40).filter(|&cell| numbers[cell] > 0).collect();
    assert_eq!(counted, [1, 2 * 8 + 5, 3 * 8 + 3]);
    assert_eq!(numbers[80..88], [0, 0, 0, 1, 0, 1, 0, 0]);
}

#[test]
fn a_window_without_a_reading_adds_nothing_and_keeps_the_cut() {
    let frame = mostly_dead();
    assert_eq!(filtered(&frame), (vec![NO_READING, NO_READING, 5, 5], 5));
    assert_eq!(filter(&frame).1.coarse_shifts, 10);
    assert_eq!(hollow(&frame), [false; 4]);
    assert_eq!(explained(&frame, 0), (0, 0, NO_READING, 0, 0, Cause::Empty));
    assert_eq!([0, 5, 7].map(|level| Window::at(&frame, 0, 0).balance(level)), [0; 3]);
    // Back from the reading: the cut stays at 5, and the end's stores and box are those of no pixel.
    let back = walk(&frame, 2, 0, &[0, 1, 1, 1, 1]);
    assert_eq!(back.answers, [5, 5, 5, NO_READING, NO_READING, 65_534]);
    assert_eq!((back.shifts, back.coarse_shifts, back.cut), (5, 15, 5));
    let Stores::Coarse { counts, words, summary } = stores(&frame, Way::Coarse, &back) else { unreachable!() };
    assert_eq!((counts, words, summary), (vec![0; 16], vec![0; 8], vec![0]));
    assert_eq!(balance_box(&frame, &back), [0; BOX_CELLS]);
}

#[test]
fn an_empty_window_of_kind_2() {
    let frame = b_with(&[NO_READING; 5]);
    assert_eq!(filtered(&frame), (vec![NO_READING; 5], 0));
    assert_eq!(explained(&frame, 2), (0, 0, NO_READING, 0, 0, Cause::Empty));
    let walk = walk(&frame, 0, 0, &[0]);
    assert_eq!(stores(&frame, Way::Chain, &walk), Stores::Chain { entries: Vec::new() });
    assert_eq!(stores(&frame, Way::Columns, &walk), Stores::Columns { numbers: vec![0; 96] });
}

#[test]
fn a_dead_centre_has_its_own_guide() {
    let frame = |guide: u16| row(KIND_TABLE, 8, 2, 1, &[2, NO_READING, 6], &[0, guide, 1], &[3, 1, 1, 3]);
    assert_eq!(Window::at(&frame(0), 1, 0).answer(), 2);
    assert_eq!(Window::at(&frame(1), 1, 0).answer(), 6);
}

#[test]
fn what_a_dead_pixel_would_weigh_leaves_a_window_hollow() {
    let frame = row(KIND_TABLE, 8, 2, 1, &[6, NO_READING, 4], &[1, 0, 1], &[1, 0, 1, 1]);
    assert_eq!(explained(&frame, 1), (2, 2, 4, 0, 1, Cause::Hollow));
}

#[test]
fn only_65535_is_no_reading_and_no_guide_is() {
    let opened = |value: u16, guide: u16| {
        let mut file = written_c(6, 0, 1).unwrap();
        file[2..4].copy_from_slice(&value.to_be_bytes());
        file[6..8].copy_from_slice(&guide.to_be_bytes());
        assert_eq!(written_c(value, guide, 1).map(drop), open(&file).map(drop));
        open(&file).map(|frame| frame.values)
    };
    assert_eq!(opened(65_535, 1), Ok(vec![2, 65_535]));
    for value in [8, 1_024, 65_533, 65_534] {
        assert_eq!(opened(value, 1), Err(Refusal::contents(2)));
    }
    assert_eq!(opened(65_535, 65_535), Err(Refusal::contents(6)));
    assert_eq!(opened(65_535, 2), Err(Refusal::contents(6)));
}

#[test]
fn calls_refuse_in_order() {
    let file = bytes_of_hex(A).unwrap();
    let lent = Lengths { counts: 32, words: 8, numbers: 64, summary: 1, answers: 3 };
    let refused =
        |way, start, moves: &[u8]| calls::walk(&file, way, start, moves, &lent).map(drop).map_err(|r| r.number);
    let long = vec![0; calls::MOVES_MOST + 1];
    assert_eq!(refused(1, (2, 0), &[0, 0]), Ok(()));
    assert_eq!(refused(0, (3, 0), &long), Err(8));
    assert_eq!(refused(4, (0, 0), &[]), Ok(()));
    assert_eq!(refused(5, (0, 0), &[]), Err(8));
    let way_4 = |lent: Lengths| calls::filter(&file, 4, &lent).map(drop).map_err(|r| r.number);
    assert_eq!(way_4(Lengths { numbers: 0, ..lent }), Ok(()));
    assert_eq!(way_4(Lengths { summary: 0, ..lent }), Err(11));
    assert_eq!(way_4(Lengths { counts: 31, ..lent }), Err(11));
    assert_eq!(way_4(Lengths { words: 7, ..lent }), Err(11));
    assert_eq!(calls::filter(&file, 1, &Lengths { summary: 0, ..lent }).map(drop), Ok(()));
    assert_eq!(refused(257, (3, 0), &[]), Err(8));
    assert_eq!(refused(1, (3, 0), &long), Err(9));
    assert_eq!(refused(1, (0, 1), &[]), Err(9));
    assert_eq!(refused(1, (0, 0), &long), Err(10));
    assert_eq!(refused(1, (0, 0), &long[1..]), Err(11));
    assert_eq!(refused(1, (0, 0), &[0, 0, 0]), Err(11));
    assert_eq!(refused(2, (0, 0), &[]), Ok(()));
    assert_eq!(calls::filter(&file, 3, &Lengths { numbers: 36, ..lent }), Err(Refusal::of(11)));
    assert_eq!(
        calls::filter(&file, 3, &Lengths { numbers: 37, answers: 3, ..Default::default() }).unwrap().answers,
        [1, 3, 3]
    );
    assert_eq!(calls::balance(&file, (0, 0), 8), Err(Refusal::of(9)));
    assert_eq!(calls::balance(&file, (0, 0), 65_537), Err(Refusal::of(9)));
    assert_eq!(calls::balance(&file, (1, 0), 3), Ok(21 + 9 - 21));
    assert_eq!(calls::explain(&file, (3, 0)), Err(Refusal::of(9)));
    assert_eq!(calls::explain(&file, (0, 1)), Err(Refusal::of(9)));
    assert_eq!(calls::explain(&file[1..], (3, 0)), Err(Refusal::of(6)));
    assert_eq!(calls::explain(&file, (1, 0)).map(|why| (why.below, why.reached)), Ok((21, 21 + 9)));
}

/// Request 7's row: built-in weights, levels 5 1 3 2 7 and upper levels 6 1 5 4 7.
const SPANNED: [u16; 5] = [5, 1, 3, 2, 7];
const UPPER: [u16; 5] = [6, 1, 5, 4, 7];
const SPANNED_GUIDE: [u16; 5] = [0, 0, 2, 1, 3];

fn spanned() -> Frame {
    row(KIND_TABLE, 8, 4, 1, &SPANNED, &SPANNED_GUIDE, &[])
}

/// Its file, or one with another value plane.
fn spanned_file(kind: u8, values: &[u16]) -> Vec<u8> {
    let asked = Asked { kind: kind.into(), smoothing: u32::from(kind == KIND_GUIDED), ..spanned().settings.asked() };
    write(&asked, values, &SPANNED_GUIDE, &[], usize::MAX).unwrap()
}

#[test]
fn a_tolerance_has_a_least_and_a_greatest_answer() {
    let Tolerated { least, greatest, least_shifts, greatest_shifts, stores, .. } = both(&spanned(), &UPPER);
    assert_eq!((least, least_shifts), (vec![1, 3, 2, 3, 7], 9));
    assert_eq!((greatest, greatest_shifts), (vec![1, 5, 4, 5, 7], 9));
    // The last window has levels 4 and 7 of guides 1 and 3.
    let Stores::Joint { counts, words } = stores else { unreachable!() };
    let counted: Vec<usize> = (0..counts.len()).filter(|&cell| counts[cell] == 1).collect();
    assert_eq!((counted, words), (vec![4 * 4 + 1, 7 * 4 + 3], vec![0, 0, 0, 0, 2, 0, 0, 8]));
}

#[test]
fn a_tolerance_of_nothing_is_the_filter_twice() {
    let same = both(&spanned(), &SPANNED);
    assert_eq!((same.least, same.least_shifts), filtered(&spanned()));
    assert_eq!((same.greatest, same.greatest_shifts), filtered(&spanned()));
}

#[test]
fn every_choice_lies_between() {
    let bounds = both(&spanned(), &UPPER);
    let (mut least, mut greatest) = (vec![NO_READING; 5], vec![0; 5]);
    let mut choices = 0;
    for first in 5..=6 {
        for third in 3..=5 {
            for fourth in 2..=4 {
                let answers = filter(&spanned().with_values(&[first, 1, third, fourth, 7])).0;
                least.iter_mut().zip(&answers).for_each(|(least, &answer)| *least = answer.min(*least));
                greatest.iter_mut().zip(&answers).for_each(|(greatest, &answer)| *greatest = answer.max(*greatest));
                choices += 1;
            }
        }
    }
    assert_eq!((choices, least, greatest), (18, bounds.least, bounds.greatest));
}

#[test]
fn a_tolerance_passes_over_dead_pixels() {
    let dead = NO_READING;
    let frame = row(KIND_TABLE, 8, 2, 1, &[dead, dead, dead, 5, 2], &[0; 5], &[0; 4]);
    let bounds = both(&frame, &[dead, dead, dead, 6, 7]);
    assert_eq!((bounds.least, bounds.least_shifts), (vec![dead, dead, 5, 2, 2], 5 + 3));
    assert_eq!((bounds.greatest, bounds.greatest_shifts), (vec![dead, dead, 6, 6, 6], 6));
}

#[test]
fn a_tolerance_refuses_in_order() {
    let file = spanned_file(KIND_TABLE, &SPANNED);
    let room = tolerance::Lengths { counts: 32, words: 8, least: 5, greatest: 5 };
    let none = tolerance::Lengths { counts: 0, words: 0, least: 0, greatest: 0 };
    let refused = |file: &[u8], upper: &[u16], lent: &tolerance::Lengths| {
        tolerance(file, upper, lent).map(drop).map_err(|refusal| refusal.number)
    };
    assert_eq!(refused(&file, &UPPER, &room), Ok(()));
    assert_eq!(refused(&file[1..], &[], &none), Err(6));
    assert_eq!(refused(&spanned_file(KIND_GUIDED, &SPANNED), &[], &none), Err(8));
    assert_eq!(refused(&file, &UPPER[1..], &none), Err(13));
    assert_eq!(refused(&file, &[UPPER.as_slice(), &[7]].concat(), &room), Err(13));
    let with = |pixel: usize, level: u16| {
        let mut upper = UPPER;
        upper[pixel] = level;
        refused(&file, &upper, &room)
    };
    assert_eq!([5, 4].map(|level| with(0, level)), [Ok(()), Err(13)]);
    assert_eq!([7, 8, 65_534, NO_READING].map(|level| with(4, level)), [Ok(()), Err(13), Err(13), Err(13)]);
    let dead = spanned_file(KIND_TABLE, &[5, 1, NO_READING, 2, 7]);
    assert_eq!(refused(&dead, &UPPER, &room), Err(13));
    assert_eq!(refused(&dead, &[6, 1, NO_READING, 4, 7], &room), Ok(()));
    assert_eq!(refused(&file, &UPPER, &tolerance::Lengths { counts: 31, ..room }), Err(11));
    assert_eq!(refused(&file, &UPPER, &tolerance::Lengths { words: 7, ..room }), Err(11));
    assert_eq!(refused(&file, &UPPER, &tolerance::Lengths { least: 4, ..room }), Err(11));
    assert_eq!(refused(&file, &UPPER, &tolerance::Lengths { greatest: 4, ..room }), Err(11));
}

/// A row of three values whose six bytes lie at 0, its guide plane at 6, its table at 12 and its trailer at 20.
fn moved_file() -> Vec<u8> {
    file_of(&row(KIND_TABLE, 1024, 2, 1, &[0x0102, 0x0304, 0x0203], &[0, 1, 0], &[1, 2, 3, 4]))
}

#[test]
fn high_bytes_come_first_and_low_bytes_after() {
    let file = moved_file();
    let moved = split(&file, file.len()).unwrap();
    assert_eq!((&file[..6], &moved[..6]), ([1, 2, 3, 4, 2, 3].as_slice(), [1, 3, 2, 2, 4, 3].as_slice()));
    assert_eq!(file[6..], moved[6..]);
    assert_eq!(join(&moved, moved.len()), Ok(file));
    // A file that is not split is joined all the same, and one number is its own byte planes.
    assert_eq!(join_plane(&[1, 2, 3, 4, 2, 3]), [1, 4, 2, 2, 3, 3]);
    assert_eq!((split_plane(&[1, 2]), join_plane(&[1, 2])), (vec![1, 2], vec![1, 2]));
}

#[test]
fn byte_planes_refuse_in_order() {
    let given = |changes: &[(usize, u8)], lent: usize| {
        let mut file = moved_file();
        changes.iter().for_each(|&(place, byte)| file[place] = byte);
        let refused = |result: Result<Vec<u8>, Refusal>| result.err().map(|refusal| refusal.to_string());
        [split(&file, lent), join(&file, lent)].map(refused)
    };
    let both = |number: u8| [number, number].map(|number| Some(format!("refused {number}")));
    // The last bytes of the three distances, which are 20, 14 and 8.
    let (values, guide, table) = (35, 39, 43);
    assert_eq!(given(&[], 48), [None, None]);
    assert_eq!(given(&[], 47), both(11));
    // One byte in common, at the front and at the end, with the guide plane and with the table.
    let (front, end) = ([(values, 9), (table, 0)], [(guide, 15)]);
    let (table_front, table_end) = ([(values, 13), (guide, 6), (table, 20)], [(table, 15)]);
    for changes in [front.as_slice(), &end, &table_front, &table_end] {
        assert_eq!(given(changes, 48), both(14));
        assert_eq!(given(changes, 0), both(14));
    }
    // The guide plane and the table may have bytes in common, and distance 0 is no table.
    assert_eq!(given(&[(table, 14)], 48), [None, None]);
    assert_eq!(given(&[(values, 6), (guide, 12), (table, 0)], 48), [None, None]);
    // A value of 1,026 is no level, nor need it be one to be joined.
    assert_eq!(given(&[(0, 4)], 48), [Some("refused 7 0".to_string()), None]);
    assert_eq!(given(&[(0, 4)], 47), [Some("refused 7 0".to_string()), Some("refused 11".to_string())]);
    assert_eq!(given(&[(0, 4), (guide, 15)], 0), both(14));
    assert_eq!(given(&[(guide, 15), (table, 21)], 48), both(6));
}

#[test]
fn a_split_file_is_joined_to_the_very_file() {
    let mut random = Random::new(10);
    let (mut moved, mut refused) = (0, 0);
    for _ in 0..600 {
        let file = accepted_file(&mut random, 6);
        match split(&file, file.len()) {
            Ok(split) => {
                assert_eq!(join(&split, file.len()), Ok(file));
                moved += 1;
            }
            Err(refusal) => {
                assert_eq!((refusal, join(&file, file.len())), (Refusal::of(14), Err(refusal)));
                refused += 1;
            }
        }
    }
    assert!(moved > 300 && refused > 50, "{moved} {refused}");
}

#[test]
fn grants_go_round_the_unfinished_frames() {
    assert_eq!(schedule(&[3, 5, 2], &[4, 0, 3]), [0, 1, 2, 0, 1, 2, 0]);
    assert_eq!(schedule(&[3, 5, 2], &[4_096]), [0, 1, 2, 0, 1, 2, 0, 1, 1, 1]);
    assert_eq!(schedule(&[3, 5, 2], &[1; 10]), schedule(&[3, 5, 2], &[10]));
    assert_eq!(schedule(&[1, 3, 1], &[2, 2, 2]), [0, 1, 2, 1, 1]);
    assert_eq!(schedule(&[1; 8], &[7]), [0, 1, 2, 3, 4, 5, 6]);
    assert!(schedule(&[], &[4_096]).is_empty() && schedule(&[3], &[0, 0]).is_empty() && schedule(&[3], &[]).is_empty());
}

#[test]
fn an_unfinished_frame_is_served_within_eight_grants() {
    let mut random = Random::new(11);
    for _ in 0..300 {
        let pixels: Vec<usize> = (0..random.below(9)).map(|_| 1 + random.below(30)).collect();
        let limits: Vec<u32> = (0..random.below(20)).map(|_| random.below(40) as u32).collect();
        let served = schedule(&pixels, &limits);
        let sum = |numbers: &[usize]| numbers.iter().sum::<usize>();
        assert_eq!(served.len(), sum(&pixels).min(limits.iter().sum::<u32>() as usize));
        for (file, &pixels) in pixels.iter().enumerate() {
            let turns: Vec<usize> = (0..served.len()).filter(|&turn| served[turn] == file).collect();
            let waits = turns.windows(2).map(|two| two[1] - two[0]);
            assert!(waits.chain(turns.first().map(|first| first + 1)).all(|wait| wait <= 8));
            let last = turns.last().map_or(0, |last| last + 1);
            assert!(turns.len() == pixels || served.len() - last < 8);
        }
    }
}

/// A, B and D end to end, and the length of each.
fn hall() -> (Vec<u8>, Vec<usize>) {
    let files = [bytes_of_hex(A).unwrap(), file_of(&frame_b()), file_of(&frame_c(0))];
    (files.concat(), files.iter().map(Vec::len).collect())
}

/// What the hall's three sheets need.
const HALL_ROOM: Lengths = Lengths { counts: 32 + 128 + 16, words: 24, numbers: 0, summary: 0, answers: 10 };

fn hall_with(limits: &[u32]) -> Cameras {
    let (files, lengths) = hall();
    cameras(&files, &lengths, limits, &HALL_ROOM).unwrap()
}

fn hall_answers(limits: &[u32]) -> Vec<Vec<u16>> {
    hall_with(limits).cameras.into_iter().map(|camera| camera.answers).collect()
}

#[test]
fn a_hall_with_three_sheets() {
    assert_eq!(hall_with(&[4, 0, 3]).served, [0, 1, 2, 0, 1, 2, 0]);
    assert_eq!(hall_answers(&[4, 0, 3]), [vec![1, 3, 3], vec![2, 2], vec![2, 2]]);
    assert_eq!(hall_with(&[4_096]).served, [0, 1, 2, 0, 1, 2, 0, 1, 1, 1]);
    assert_eq!(hall_answers(&[4_096]), [vec![1, 3, 3], vec![2, 2, 3, 3, 4], vec![2, 2]]);
    assert_eq!(hall_answers(&[2]), [vec![1], vec![2], vec![]]);
}

#[test]
fn a_camera_leaves_the_walk_so_far() {
    let halted = hall_with(&[4]);
    assert!(hall_with(&[2]).cameras[2].stores.is_none());
    for (camera, moves) in halted.cameras.iter().zip([1, 0, 0]) {
        let walk = walk(&camera.frame, 0, 0, &vec![0; moves]);
        assert_eq!(camera.stores, Some(stores(&camera.frame, Way::Joint, &walk)));
        assert_eq!(camera.answers, walk.answers);
    }
}

#[test]
fn cameras_refuse_in_order() {
    let (files, lengths) = hall();
    let refused = |files: &[u8], lengths: &[usize], limits: &[u32], lent: &Lengths| {
        cameras(files, lengths, limits, lent).map(|cameras| cameras.served.len()).map_err(|refusal| refusal.to_string())
    };
    let number = |number: u8| Err(format!("refused {number}"));
    let none = Lengths::default();
    assert_eq!(refused(&[], &[], &[4_096], &none), Ok(0));
    assert_eq!(refused(&[], &[0], &[], &none), number(1));
    assert_eq!(refused(&files, &lengths, &[4_096; 2], &HALL_ROOM), Ok(10));
    assert_eq!(refused(&files, &lengths, &[0, 4_097], &none), number(15));
    assert_eq!(refused(&files, &[], &[], &none), number(15));
    assert_eq!(refused(&files[1..], &lengths, &[], &none), number(15));
    // Nine lengths, of which some are 0, and lengths whose sum 64 bits cannot say.
    let nine = [lengths.as_slice(), &[0; 6]].concat();
    assert_eq!(refused(&files, &nine, &[], &none), number(15));
    assert_eq!(refused(&files, &nine[..8], &[], &none), number(1));
    assert_eq!(refused(&files, &[usize::MAX, files.len() + 1], &[], &none), number(15));
    // The second file's first guide, and then the first file's first value.
    let mut wrong = files.clone();
    wrong[40 + 10] = 1;
    assert_eq!(refused(&wrong, &lengths, &[], &none), Err("refused 7 10".to_string()));
    assert_eq!(refused(&wrong, &lengths, &[4_097], &none), number(15));
    wrong[0] = 1;
    assert_eq!(refused(&wrong, &lengths, &[], &none), Err("refused 7 0".to_string()));
    wrong[39] = 0;
    assert_eq!(refused(&wrong, &lengths, &[], &none), number(1));
    let Lengths { counts, words, answers, .. } = HALL_ROOM;
    assert_eq!(refused(&files, &lengths, &[], &Lengths { counts: counts - 1, ..HALL_ROOM }), number(11));
    assert_eq!(refused(&files, &lengths, &[], &Lengths { words: words - 1, ..HALL_ROOM }), number(11));
    assert_eq!(refused(&files, &lengths, &[], &Lengths { answers: answers - 1, ..HALL_ROOM }), number(11));
}

#[test]
fn the_answer_is_the_lowest_level_of_least_weighted_absolute_difference() {
    let mut random = Random::new(4);
    let mut minimal = 0;
    for _ in 0..300 {
        let frame = open(&accepted_file(&mut random, 6)).unwrap();
        let window = Window::at(&frame, 0, 0);
        // By the own weights every level of a hollow window has the difference 0, and so has an empty one.
        if window.has_negative_weight() || window.hollow() || window.empty() {
            continue;
        }
        let lowest = (0..frame.settings.levels).min_by_key(|&level| window.absolute_differences(level));
        assert_eq!(Some(window.answer()), lowest);
        minimal += 1;
    }
    assert!(minimal > 100, "only {minimal} windows");
}

#[test]
fn the_answer_is_the_first_level_at_half() {
    let mut random = Random::new(5);
    let (mut hollow, mut negative, mut unsteady, mut empty) = (0, 0, 0, 0);
    for _ in 0..600 {
        let frame = open(&accepted_file(&mut random, 6)).unwrap();
        let window = Window::at(&frame, 0, 0);
        hollow += u32::from(window.hollow());
        negative += u32::from(window.has_negative_weight());
        unsteady += u32::from(!window.steady());
        let first = (0..frame.settings.levels).find(|&level| window.balance(level) >= 0);
        if window.empty() {
            assert_eq!((window.answer(), first), (NO_READING, Some(0)));
            empty += 1;
        } else {
            assert_eq!(Some(window.answer()), first);
        }
    }
    assert!(hollow > 30 && negative > 10 && unsteady > 10 && empty > 30, "{hollow} {negative} {unsteady} {empty}");
}

#[test]
fn a_written_frame_opens_as_it_was() {
    let mut random = Random::new(6);
    for _ in 0..300 {
        let frame = open(&accepted_file(&mut random, 6)).unwrap();
        assert_eq!(open(&file_of(&frame)), Ok(frame));
    }
}
