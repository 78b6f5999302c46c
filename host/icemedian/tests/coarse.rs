//! The coarse way on chosen rows: the other ways' answers, a count of its own and the summary of the last window.

mod rows;

use icemedian::{filter_into, walk, Refusal, Stores, Way, Weights};
use rows::{frame_a, frame_b, row, GUIDED};

/// Three blocks, the last of 8 levels, under a table whose rows differ.
fn three_blocks(values: &[u16], guide: &[u16], table: &[u16]) -> Vec<u8> {
    row(40, 2, Weights::Table, 1, values, guide, table)
}

/// The filter's levels, way 1's count, way 4's count and its summary.
fn filtered(file: &[u8]) -> (Vec<u16>, u64, u64, Vec<i64>) {
    let joint = icemedian::filter(file, Way::Joint).unwrap();
    let mut stores = Stores::fitting(Way::Coarse, &joint.settings).unwrap();
    let mut levels = vec![0; joint.levels.len()];
    let shifts = filter_into(file, Way::Coarse, &mut stores, &mut levels).unwrap();
    assert_eq!(levels, joint.levels);
    (levels, joint.shifts, shifts, stores.summary)
}

#[test]
fn filters_of_chosen_rows() {
    assert_eq!(filtered(&frame_a()), (vec![1, 3, 3], 3, 7, vec![16]));
    assert_eq!(filtered(&frame_b()), (vec![2, 2, 3, 3, 4], 9, 14, vec![1041]));
    let blocks = three_blocks(&[2, 39, 17, 20], &[0, 1, 0, 1], &[1, 2, 0, 1]);
    assert_eq!(filtered(&blocks), (vec![39, 39, 20, 20], 58, 28, vec![0, 1, 0]));
}

/// A walk's answers, count and summary; the box is zeros and the cut the last answer.
fn walked(file: &[u8], column: usize, moves: &[u8]) -> (Vec<u16>, u64, Vec<i64>) {
    let walked = walk(file, Way::Coarse, (column, 0), moves).unwrap();
    let joint = walk(file, Way::Joint, (column, 0), moves).unwrap();
    assert_eq!((&walked.answers, walked.end.cut), (&joint.answers, joint.end.cut));
    assert_eq!((&walked.stores.counts, &walked.stores.words), (&joint.stores.counts, &joint.stores.words));
    assert_eq!(walked.end.balance_box, [0; 256]);
    assert!(walked.stores.numbers.is_empty() && joint.stores.summary.is_empty());
    (walked.answers, walked.end.shifts, walked.stores.summary)
}

#[test]
fn walks_of_chosen_rows() {
    assert_eq!(walked(&frame_a(), 0, &[0, 2, 0, 1]), (vec![1, 3, 65_534, 3, 3], 10, vec![51]));
    let blocks = three_blocks(&[33, 2, 39, 17], &[0, 1, 1, 0], &[1, 2, 0, 3]);
    assert_eq!(walked(&blocks, 0, &[0, 0, 0]), (vec![2, 2, 2, 39], 15, vec![0, 1, 2]));
    assert_eq!(walked(&blocks, 3, &[1, 9, 1, 2]), (vec![39, 2, 65_533, 2, 65_534], 13, vec![3, 0, 3]));
    // B with its levels apart: the pixel of negative weight has a block of its own.
    let apart = row(40, 16, GUIDED, 2, &[17, 34, 37, 35, 3], &[7, 7, 15, 7, 0], &[]);
    assert_eq!(walked(&apart, 0, &[0, 0]), (vec![34, 34, 37], 45, vec![-815, 550, 3210]));
    // A hollow window between two others, and a walk that ends in it.
    let between = row(40, 2, Weights::Table, 0, &[20, 35, 31], &[0, 1, 0], &[1, 0, 0, 0]);
    assert_eq!(walked(&between, 0, &[0, 0]), (vec![20, 35, 31], 26, vec![0, 1, 0]));
    assert_eq!(walked(&between, 0, &[0]), (vec![20, 35], 10, vec![0, 0, 1]));
}

#[test]
fn a_summary_that_is_too_short_is_refused() {
    let file = three_blocks(&[33, 2, 39, 17], &[0, 1, 1, 0], &[1, 2, 0, 3]);
    let mut stores = Stores::fitting(Way::Coarse, &icemedian::check(&file).unwrap()).unwrap();
    assert_eq!(stores.summary.len(), 3);
    stores.summary = vec![7; 2];
    let before = stores.clone();
    assert_eq!(filter_into(&file, Way::Coarse, &mut stores, &mut [0; 4]), Err(Refusal::Room));
    assert_eq!(stores, before);
    // No other way looks at it.
    assert_eq!(filter_into(&file, Way::Joint, &mut stores, &mut [0; 4]), Ok(39));
    assert_eq!(stores.summary, before.summary);
}
