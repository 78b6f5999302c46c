//! Levels known within a tolerance: the least and the greatest answer, and what refuses a plane of upper levels.

mod rows;

use icemedian::{filter, tolerance, tolerance_into, Refusal, Stores, Tolerance, Way, Weights, NO_READING};
use rows::{frame_a, lamp, middle, row, tabled};

const VALUES: [u16; 5] = [5, 1, 3, 2, 7];
const UPPER: [u16; 5] = [6, 1, 5, 4, 7];
const GUIDE: [u16; 5] = [0, 0, 2, 1, 3];

/// Request 7's row: built-in weights.
fn spanned(values: &[u16; 5]) -> Vec<u8> {
    row(8, 4, Weights::Table, 1, values, &GUIDE, &[])
}

fn planes(bounds: Tolerance) -> (Vec<u16>, u64, Vec<u16>, u64) {
    (bounds.least, bounds.least_shifts, bounds.greatest, bounds.greatest_shifts)
}

#[test]
fn request_7s_row() {
    let bounds = tolerance(&spanned(&VALUES), &UPPER).unwrap();
    assert_eq!(planes(bounds), (vec![1, 3, 2, 3, 7], 9, vec![1, 5, 4, 5, 7], 9));
}

#[test]
fn both_are_filters() {
    for (file, raised, upper) in [
        (spanned(&VALUES), spanned(&UPPER), UPPER.as_slice()),
        (spanned(&VALUES), spanned(&VALUES), &VALUES),
        (lamp(), tabled(&[3, 7, 6], &[0, 1, 0], &[1, 0, 0, 0]), &[3, 7, 6]),
        (middle(), tabled(&[7, 7, 7], &[0, 1, 0], &[1, 1, 0, 0]), &[7, 7, 7]),
    ] {
        let (lower, raised) = (filter(&file, Way::Joint).unwrap(), filter(&raised, Way::Joint).unwrap());
        let expected = (lower.levels, lower.shifts, raised.levels, raised.shifts);
        assert_eq!(planes(tolerance(&file, upper).unwrap()), expected);
    }
}

#[test]
fn dead_pixels_have_neither_a_reading_nor_an_upper_level() {
    let dead = NO_READING;
    let file = tabled(&[dead, dead, dead, 5, 2], &[0; 5], &[0; 4]);
    let bounds = tolerance(&file, &[dead, dead, dead, 6, 7]).unwrap();
    let readings = [None, None, Some((5, 6)), Some((2, 6)), Some((2, 6))];
    assert!(bounds.readings().eq(readings));
    assert_eq!((bounds.least_shifts, bounds.greatest_shifts), (8, 6));
    let wrong = |upper: [u16; 5]| tolerance(&file, &upper).unwrap_err().to_string();
    assert_eq!(wrong([dead, 4, dead, 6, 7]), "refused 13: pixel 1 has no reading, but 4 as its upper level");
    assert_eq!(wrong([dead, dead, dead, 6, dead]), "refused 13: pixel 4 has a reading, 2, but no upper level");
}

#[test]
fn number_13_says_what_is_wrong() {
    let refused = |upper: &[u16]| tolerance(&spanned(&VALUES), upper).unwrap_err();
    for length in [0, 4, 6, 65_541] {
        let refusal = refused(&vec![7; length]);
        assert_eq!(refusal, Refusal::UpperLength { length, wanted: 5 });
        let text = format!("refused 13: the plane of upper levels has {length} numbers, and must have 5");
        assert_eq!((refusal.number(), refusal.to_string()), (13, text));
    }
    let below = refused(&[5, 1, 2, 1, 8]);
    assert_eq!(below, Refusal::UpperLevel { pixel: 2, reading: 3, upper: 2 });
    assert_eq!(below.to_string(), "refused 13: the reading of pixel 2 is 3, above its upper level 2");
    for upper in [8, 1024, 65_534] {
        let outside = refused(&[5, 1, 3, upper, 7]);
        assert_eq!(outside, Refusal::UpperLevel { pixel: 3, reading: 2, upper });
        let text = format!("refused 13: the upper level of pixel 3 is {upper}, which is none of the frame's levels");
        assert_eq!((outside.number(), outside.to_string()), (13, text));
    }
}

/// Check 13 may look at many numbers at a time: every wrong number at each place in turn, and the right ones beside them.
#[test]
fn number_13_looks_at_every_pixel() {
    for width in [1, 64, 65, 130] {
        let (reading, levels) = (150, 300);
        let values = vec![reading; width];
        let file = row(levels, 2, Weights::Table, 0, &values, &vec![0; width], &[]);
        for pixel in 0..width {
            let mut upper = vec![200; width];
            for level in [0, reading - 1, levels, levels + 1, 1024, 32_767, 32_768, 65_279, 65_534, NO_READING] {
                upper[pixel] = level;
                let wrong = Refusal::UpperLevel { pixel, reading, upper: level };
                assert_eq!(tolerance(&file, &upper), Err(wrong), "{width} {pixel} {level}");
            }
            for level in [reading, levels - 1] {
                upper[pixel] = level;
                assert_eq!(tolerance(&file, &upper).unwrap().greatest, upper, "{width} {pixel} {level}");
            }
            let mut dead = values.clone();
            dead[pixel] = NO_READING;
            let file = row(levels, 2, Weights::Table, 0, &dead, &vec![0; width], &[]);
            let wrong = Refusal::UpperLevel { pixel, reading: NO_READING, upper: upper[pixel] };
            assert_eq!(tolerance(&file, &upper), Err(wrong), "{width} {pixel}");
            upper[pixel] = NO_READING;
            assert_eq!(tolerance(&file, &upper).unwrap().greatest, upper, "{width} {pixel}");
        }
    }
}

/// The value plane need not be the file's first part.
#[test]
fn number_13_finds_the_readings() {
    let file = spanned(&VALUES);
    let (planes, trailer) = file.split_at(file.len() - 28);
    let mut swapped = [&planes[10..], &planes[..10], trailer].concat();
    let distances = swapped.len() - 16;
    swapped[distances..distances + 8].copy_from_slice(&[0, 0, 0, 10, 0, 0, 0, 20]);
    assert_eq!(tolerance(&swapped, &UPPER), tolerance(&file, &UPPER));
    assert_eq!(tolerance(&swapped, &[6, 1, 2, 4, 7]), Err(Refusal::UpperLevel { pixel: 2, reading: 3, upper: 2 }));
}

#[test]
fn kind_2_and_short_buffers() {
    assert_eq!(tolerance(&frame_a(), &[]), Err(Refusal::Way));
    assert_eq!(tolerance(&frame_a()[1..], &[]).unwrap_err().number(), 6);
    let file = spanned(&VALUES);
    let stores = Stores::fitting(Way::Joint, &icemedian::check(&file).unwrap()).unwrap();
    let short = |shorten: fn(&mut Stores), least: usize, greatest: usize| {
        let mut stores = stores.clone();
        shorten(&mut stores);
        let before = stores.clone();
        let (mut low, mut high) = (vec![9; least], vec![9; greatest]);
        let refusal = tolerance_into(&file, &UPPER, &mut stores, &mut low, &mut high);
        assert!(refusal.is_ok() || (stores == before && [low, high].concat().iter().all(|&level| level == 9)));
        refusal
    };
    assert_eq!(short(|_| (), 5, 5), Ok((9, 9)));
    assert_eq!(short(|stores| stores.counts.truncate(31), 5, 5), Err(Refusal::Room));
    assert_eq!(short(|stores| stores.words.truncate(7), 5, 5), Err(Refusal::Room));
    assert_eq!(short(|_| (), 4, 5), Err(Refusal::Room));
    assert_eq!(short(|_| (), 5, 4), Err(Refusal::Room));
}

#[test]
fn the_stores_hold_the_upper_levels_last_window() {
    let file = spanned(&VALUES);
    let mut stores = Stores::fitting(Way::Joint, &icemedian::check(&file).unwrap()).unwrap();
    let mut raised = stores.clone();
    tolerance_into(&file, &UPPER, &mut stores, &mut [0; 5], &mut [0; 5]).unwrap();
    icemedian::filter_into(&spanned(&UPPER), Way::Joint, &mut raised, &mut [0; 5]).unwrap();
    assert_eq!(stores, raised);
    assert_eq!(stores.words, [0, 0, 0, 0, 2, 0, 0, 8]);
}
