//! Windows in which no pixel weighs anything are answered and balanced as if each pixel weighed 1, and the cut point
//! moves with them.

mod rows;

use icemedian::{balance, filter, filter_into, walk, Stores, Way};
use rows::{frame_d, lamp, middle};

/// The levels, which are the same by ways 1 and 4, and both shift counts.
fn filtered(file: &[u8]) -> (Vec<u16>, u64, u64) {
    let (joint, coarse) = (filter(file, Way::Joint).unwrap(), filter(file, Way::Coarse).unwrap());
    assert_eq!(joint.levels, coarse.levels);
    (joint.levels, joint.shifts, coarse.shifts)
}

fn balances<const N: usize>(file: &[u8], column: usize, levels: [u16; N]) -> [i64; N] {
    levels.map(|level| balance(file, (column, 0), level).unwrap())
}

#[test]
fn filters_and_both_counts() {
    assert_eq!(filtered(&frame_d()), (vec![2, 2], 2, 4));
    assert_eq!(filtered(&middle()), (vec![2, 4, 2], 6, 8));
    assert_eq!(filtered(&lamp()), (vec![2, 4, 4], 4, 10));
}

#[test]
fn balances_count_pixels() {
    assert_eq!(balances(&frame_d(), 0, [1, 2, 5, 6]), [-2, 0, 0, 2]);
    assert_eq!(balances(&lamp(), 1, [2, 4, 7]), [-1, 1, 3]);
    // The windows beside the lamp go by their own weights.
    assert_eq!(balances(&lamp(), 0, [1, 2, 7]), [-1, 1, 1]);
}

#[test]
fn a_walk_that_ends_there_has_the_cut_the_box_and_the_summary_of_it() {
    let joint = walk(&lamp(), Way::Joint, (0, 0), &[0]).unwrap();
    assert_eq!((&joint.answers[..], joint.end.shifts, joint.end.cut), ([2, 4].as_slice(), 4, 4));
    // Of guide 0 two pixels are at level 4 or below, the lamp is above.
    assert_eq!(joint.end.balance_box[..3], [2, -1, 0]);
    let coarse = walk(&lamp(), Way::Coarse, (0, 0), &[0]).unwrap();
    assert_eq!((coarse.answers, coarse.end.shifts, coarse.end.cut), (vec![2, 4], 6, 4));
    assert_eq!(coarse.stores.summary, [3]);
}

#[test]
fn a_filter_that_ends_there_has_a_summary_of_ones() {
    let mut stores = Stores::fitting(Way::Coarse, &icemedian::check(&frame_d()).unwrap()).unwrap();
    assert_eq!(filter_into(&frame_d(), Way::Coarse, &mut stores, &mut [0; 2]), Ok(4));
    assert_eq!(stores.summary, [2]);
}
