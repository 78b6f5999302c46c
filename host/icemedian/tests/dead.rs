//! Dead pixels: they belong to no window, though one may be asked for, and a window of them alone has no reading.

mod rows;

use icemedian::{
    balance, check, explain, filter, walk, write, Answer, Cause, Explanation, Refusal, Settings, Way, Weights,
};
use icemedian::{LEFT, NO_READING, RIGHT};
use rows::{b_with, row, tabled};

/// B with two dead pixels.
fn b_dead() -> Vec<u8> {
    b_with(&[1, NO_READING, 5, 3, NO_READING])
}

/// Three dead pixels before a reading: the first two windows have none.
fn mostly_dead() -> Vec<u8> {
    tabled(&[NO_READING, NO_READING, NO_READING, 5], &[0; 4], &[1; 4])
}

/// The levels and the shift counts of the ways that serve, which agree on the levels.
fn filtered<const N: usize>(file: &[u8], ways: [Way; N]) -> (Vec<Option<u16>>, [u64; N]) {
    let all = ways.map(|way| filter(file, way).unwrap());
    let levels: Vec<_> = all[0].readings().collect();
    assert!(all.iter().all(|one| one.readings().eq(levels.iter().copied())));
    (levels, all.map(|one| one.shifts))
}

#[test]
fn filters_by_every_way() {
    let all = [Way::Joint, Way::Columns, Way::Chain, Way::Coarse];
    assert_eq!(filtered(&b_dead(), all), ([1, 3, 5, 3, 3].map(Some).to_vec(), [13, 13, 13, 15]));
    let levels = vec![None, None, Some(5), Some(5)];
    assert_eq!(filtered(&mostly_dead(), [Way::Joint, Way::Coarse]), (levels, [5, 10]));
    assert_eq!(filtered(&b_with(&[NO_READING; 5]), all), (vec![None; 5], [0; 4]));
}

#[test]
fn explanations() {
    let explained = |column: usize| {
        let Explanation { pixels, total, level, below, reached, cause } = explain(&b_dead(), (column, 0)).unwrap();
        (pixels, total, level, below, reached, cause)
    };
    let expected = [
        (2, 136, Some(1), 0, 132, Cause::Ordinary),
        (3, 411, Some(3), 201, 402, Cause::Ordinary),
        (3, 411, Some(5), 18, 411, Cause::NegativeAtZero),
        (2, 136, Some(3), 0, 132, Cause::Ordinary),
        (2, 136, Some(3), 0, 244, Cause::NegativeAtLast),
    ];
    assert_eq!([0, 1, 2, 3, 4].map(explained), expected);
    let empty = Explanation { pixels: 0, total: 0, level: None, below: 0, reached: 0, cause: Cause::Empty };
    assert_eq!(explain(&mostly_dead(), (1, 0)), Ok(empty));
    assert_eq!(explain(&b_with(&[NO_READING; 5]), (2, 0)), Ok(empty));
}

#[test]
fn a_balance_passes_over_dead_pixels() {
    assert_eq!([0, 1, 3].map(|level| balance(&b_dead(), (0, 0), level).unwrap()), [-136, 128, 128]);
    assert_eq!([0, 5, 7].map(|level| balance(&mostly_dead(), (0, 0), level).unwrap()), [0; 3]);
    assert_eq!(balance(&mostly_dead(), (0, 0), NO_READING), Err(Refusal::Place));
}

/// The chain as level, count and guide sum of each node.
fn chain(numbers: &[u32]) -> Vec<[u32; 3]> {
    let mut nodes = Vec::new();
    let mut node = numbers[0] as usize;
    while node != 0 {
        let [level, count, guide_sum, next] = numbers[4 * node - 3..=4 * node] else { unreachable!() };
        nodes.push([level, count, guide_sum]);
        node = next as usize;
    }
    nodes
}

#[test]
fn no_store_holds_a_dead_pixel() {
    let chained = walk(&b_dead(), Way::Chain, (4, 0), &[]).unwrap();
    assert_eq!(chain(&chained.stores.numbers), [[3, 1, 7], [5, 1, 15]]);
    let columns = walk(&b_dead(), Way::Columns, (4, 0), &[]).unwrap().stores.numbers;
    let counted: Vec<usize> = (0..40).filter(|&cell| columns[cell] > 0).collect();
    assert_eq!(counted, [1, 2 * 8 + 5, 3 * 8 + 3]);
    assert_eq!(columns[80..], [0, 0, 0, 1, 0, 1, 0, 0, 0, 0, 0, 7, 0, 15, 0, 0]);
    let joint = walk(&b_dead(), Way::Joint, (4, 0), &[]).unwrap();
    assert_eq!(joint.stores.counts.iter().sum::<u16>(), 2);
    assert_eq!(joint.stores.words, [0, 0, 0, 1 << 7, 0, 1 << 15, 0, 0]);
    assert_eq!((joint.end.cut, joint.end.balance_box[7], joint.end.balance_box[15]), (3, 1, -1));
    let coarse = walk(&b_dead(), Way::Coarse, (4, 0), &[]).unwrap();
    assert_eq!(coarse.stores.summary, [136]);
}

#[test]
fn a_walk_into_dead_pixels_keeps_the_cut_and_leaves_nothing() {
    let moves = [RIGHT, LEFT, LEFT, LEFT];
    for (way, shifts) in [(Way::Joint, 5), (Way::Coarse, 15)] {
        let walked = walk(&mostly_dead(), way, (2, 0), &moves).unwrap();
        let level = Answer::Level(5);
        assert!(walked.read().eq([level, level, level, Answer::NoReading, Answer::NoReading]));
        assert_eq!((walked.end.shifts, walked.end.cut, walked.end.balance_box), (shifts, 5, [0; 256]));
        assert_eq!((walked.stores.counts, walked.stores.words), (vec![0; 16], vec![0; 8]));
        assert!(walked.stores.summary.iter().all(|&sum| sum == 0));
    }
    let dead = b_with(&[NO_READING; 5]);
    assert_eq!(walk(&dead, Way::Chain, (0, 0), &[RIGHT]).unwrap().stores.numbers[0], 0);
    assert_eq!(walk(&dead, Way::Columns, (0, 0), &[RIGHT]).unwrap().stores.numbers, [0; 96]);
}

#[test]
fn a_dead_pixel_is_asked_for_by_its_own_guide() {
    let level =
        |guide| filter(&tabled(&[2, NO_READING, 6], &[0, guide, 1], &[3, 1, 1, 3]), Way::Joint).unwrap().levels[1];
    assert_eq!([0, 1].map(level), [2, 6]);
    // What it would weigh itself is all that weighs in its window, which is hollow.
    let hollow = explain(&tabled(&[6, NO_READING, 4], &[1, 0, 1], &[1, 0, 1, 1]), (1, 0)).unwrap();
    assert_eq!((hollow.pixels, hollow.total, hollow.level, hollow.cause), (2, 2, Some(4), Cause::Hollow));
}

/// Check 7 looks at many numbers at a time: no reading and its neighbours at each place in turn.
#[test]
fn only_65535_is_no_reading_and_no_guide_is() {
    for width in [1, 64, 65, 130] {
        let settings = Settings { width, height: 1, levels: 300, guides: 64, ..Settings::default() };
        let pixels = usize::from(width);
        let (values, guide) = (vec![299; pixels], vec![63; pixels]);
        let file = write(&settings, &values, &guide, &[]).unwrap();
        for place in 0..pixels {
            for number in [300, 1024, 65_279, 65_533, 65_534, 65_535] {
                let (mut values, mut guide) = (values.clone(), guide.clone());
                let (mut with_value, mut with_guide) = (file.clone(), file.clone());
                (values[place], guide[place]) = (number, number);
                with_value[2 * place..2 * place + 2].copy_from_slice(&number.to_be_bytes());
                with_guide[2 * (pixels + place)..2 * (pixels + place) + 2].copy_from_slice(&number.to_be_bytes());
                let refused = |place: usize| Refusal::Contents { offset: 2 * place as u64 };
                let expected = if number == NO_READING { Ok(with_value.clone()) } else { Err(refused(place)) };
                assert_eq!(check(&with_value).map(drop), expected.clone().map(drop), "{width} {place} {number}");
                assert_eq!(check(&with_guide).map(drop), Err(refused(pixels + place)), "{width} {place} {number}");
                assert_eq!(write(&settings, &values, &[63].repeat(pixels), &[]), expected, "{width} {place} {number}");
                let dead = vec![NO_READING; pixels];
                assert_eq!(
                    write(&settings, &dead, &guide, &[]),
                    Err(refused(pixels + place)),
                    "{width} {place} {number}"
                );
            }
        }
    }
}

/// A number too large behind dead pixels, in each plane: its own offset.
#[test]
fn a_number_too_large_behind_dead_pixels() {
    let settings = Settings { width: 3, height: 1, levels: 8, guides: 4, weights: Weights::Table, radius: 1 };
    let refused = |values: [u16; 3], guide: [u16; 3]| write(&settings, &values, &guide, &[]).map(drop);
    assert_eq!(refused([NO_READING, NO_READING, 8], [0; 3]), Err(Refusal::Contents { offset: 4 }));
    assert_eq!(refused([NO_READING; 3], [0, 0, 4]), Err(Refusal::Contents { offset: 10 }));
    assert_eq!(refused([NO_READING; 3], [0, 3, 3]), Ok(()));
}

/// A gap wider than a window between two blocks of levels: the cut is where it was before the gap.
#[test]
fn the_cut_waits_behind_a_gap() {
    let dead = NO_READING;
    let gap = row(40, 2, Weights::Table, 1, &[39, dead, dead, dead, dead, 20], &[0; 6], &[1; 4]);
    let levels = vec![Some(39), Some(39), None, None, Some(20), Some(20)];
    assert_eq!(filtered(&gap, [Way::Joint, Way::Coarse]), (levels, [39 + 19, 2 * (2 + 7) + 2 * (1 + 4)]));
}
