//! Explanations of chosen windows, of each cause and at the edges of each.

mod rows;

use icemedian::{explain, write, Cause, Explanation, Refusal, Settings, Weights};
use rows::{b_with, frame_b, frame_d, lamp, middle, row, tabled, GUIDED};

/// Pixels, total, level, below, reached and cause of a pixel of the first row that has a level.
fn explained(file: &[u8], column: usize) -> (usize, i64, u16, i64, i64, Cause) {
    let Explanation { pixels, total, level, below, reached, cause } = explain(file, (column, 0)).unwrap();
    (pixels, total, level.unwrap(), below, reached, cause)
}

#[test]
fn bench_window_b() {
    let expected = [
        (3, 411, 2, 201, 402, Cause::Ordinary),
        (4, 832, 2, 272, 544, Cause::Ordinary),
        (5, 2945, 3, 1100, 1650, Cause::NegativeAtZero),
        (4, 1868, 3, 468, 936, Cause::Ordinary),
        (3, 1041, 4, 369, 1200, Cause::NegativeAtLast),
    ];
    assert_eq!([0, 1, 2, 3, 4].map(|column| explained(&frame_b(), column)), expected);
}

#[test]
fn a_hollow_window_counts_pixels() {
    assert_eq!(explained(&frame_d(), 0), (2, 2, 2, 0, 1, Cause::Hollow));
    assert_eq!(explained(&middle(), 1), (3, 3, 4, 1, 2, Cause::Hollow));
    assert_eq!(explained(&lamp(), 1), (3, 3, 4, 1, 2, Cause::Hollow));
    // The windows beside the lamp go by their own weights.
    assert_eq!(explained(&lamp(), 0), (2, 1, 2, 0, 1, Cause::Ordinary));
    // Weights of 1 give the same sums and are no hollow window.
    assert_eq!(explained(&tabled(&[2, 6], &[0, 0], &[1; 4]), 0), (2, 2, 2, 0, 1, Cause::Ordinary));
}

#[test]
fn below_level_0_nothing_weighs() {
    assert_eq!(explained(&tabled(&[0, 3], &[0, 0], &[1; 4]), 0), (2, 2, 0, 0, 1, Cause::Ordinary));
    assert_eq!(explained(&tabled(&[0, 3], &[0, 0], &[0; 4]), 1), (2, 2, 0, 0, 1, Cause::Hollow));
}

#[test]
fn a_sum_may_be_negative_or_more_than_the_whole() {
    assert_eq!(explained(&b_with(&[4, 5, 4, 5, 3]), 2), (5, 2945, 4, -815, 1845, Cause::NegativeAtZero));
    assert_eq!(explained(&b_with(&[4, 4, 4, 4, 5]), 2), (5, 2945, 4, 0, 3760, Cause::NegativeAtZero));
}

#[test]
fn a_formula_of_0_at_an_end_is_ordinary() {
    let cause = |guide: [u16; 2]| explained(&row(8, 5, GUIDED, 1, &[3, 1], &guide, &[]), 0).5;
    assert_eq!([[3, 1], [4, 1]].map(cause), [Cause::Ordinary, Cause::NegativeAtZero]);
    assert_eq!([[1, 3], [0, 3]].map(cause), [Cause::Ordinary, Cause::NegativeAtLast]);
}

#[test]
fn the_heaviest_window() {
    let settings = Settings { width: 31, height: 31, levels: 1024, guides: 2, weights: Weights::Table, radius: 15 };
    let file = write(&settings, &[1023; 961], &[1; 961], &[0, 0, 0, 65_535]).unwrap();
    let total = 961 * 65_535;
    let (level, cause) = (Some(1023), Cause::Ordinary);
    let heaviest = Explanation { pixels: 961, total, level, below: 0, reached: total, cause };
    assert_eq!(explain(&file, (15, 15)), Ok(heaviest));
}

#[test]
fn refusals() {
    let mut file = frame_b();
    for pixel in [(5, 0), (0, 1), (usize::MAX, 0)] {
        assert_eq!(explain(&file, pixel), Err(Refusal::Place));
    }
    file[1] = 8;
    assert_eq!(explain(&file, (5, 0)), Err(Refusal::Contents { offset: 0 }));
    assert_eq!(explain(&file[..27], (5, 0)), Err(Refusal::Trailer));
}
