//! Several cameras: whose turn it is, what each file's parts hold, and what refuses a hall.

mod rows;

use icemedian::{cameras, cameras_into, end_to_end, filter, walk, BatchFault, Cameras, Part, Refusal, Settings};
use icemedian::{write, Stores, Way, Weights, NOT_ANSWERED, NO_READING, RIGHT};
use rows::{frame_a, frame_b, frame_d, lamp, tabled};

/// Request 9's hall.
fn hall() -> (Vec<u8>, Vec<usize>) {
    end_to_end(&[frame_a(), frame_b(), frame_d()])
}

fn hall_with(limits: &[u32]) -> Cameras {
    let (files, lengths) = hall();
    cameras(&files, &lengths, limits).unwrap()
}

fn answered(cameras: &Cameras) -> Vec<&[u16]> {
    cameras.iter().map(|camera| camera.answered()).collect()
}

#[test]
fn request_9s_hall() {
    let halted = hall_with(&[4, 0, 3]);
    assert_eq!((halted.grants, halted.len(), halted.is_empty()), (7, 3, false));
    assert_eq!(answered(&halted), [[1, 3, 3].as_slice(), &[2, 2], &[2, 2]]);
    assert_eq!(halted.camera(1).answers, [2, 2, NOT_ANSWERED, NOT_ANSWERED, NOT_ANSWERED]);
    let finished = hall_with(&[4_096]);
    assert_eq!(finished.grants, 10);
    assert_eq!(answered(&finished), [[1, 3, 3].as_slice(), &[2, 2, 3, 3, 4], &[2, 2]]);
    assert!(finished.iter().all(|camera| camera.is_finished()));
}

/// One grant more answers one pixel more, of the file whose turn it is; periods do not change that.
#[test]
fn each_grant_answers_a_pixel() {
    let turns = [0, 1, 2, 0, 1, 2, 0, 1, 1, 1];
    let mut expected = [0; 3];
    for grants in 0..=11 {
        let one_period = hall_with(&[grants as u32]);
        assert_eq!(one_period, hall_with(&vec![1; grants]));
        assert_eq!(one_period.grants, grants.min(10) as u64);
        assert_eq!(answered(&one_period).iter().map(|answers| answers.len()).collect::<Vec<_>>(), expected);
        turns.get(grants).into_iter().for_each(|&file: &usize| expected[file] += 1);
    }
}

#[test]
fn a_part_is_the_walk_so_far() {
    for grants in 1..10 {
        let halted = hall_with(&[grants]);
        for (camera, file) in halted.iter().zip([frame_a(), frame_b(), frame_d()]) {
            let Some(moves) = camera.answered().len().checked_sub(1) else {
                assert!(camera.counts.iter().all(|&count| count == 0) && camera.words.iter().all(|&word| word == 0));
                continue;
            };
            let walked = walk(&file, Way::Joint, (0, 0), &vec![RIGHT; moves]).unwrap();
            assert_eq!(camera.answered(), walked.answers);
            assert_eq!(
                (camera.counts, camera.words),
                (walked.stores.counts.as_slice(), walked.stores.words.as_slice())
            );
        }
    }
}

#[test]
fn a_plane_is_row_by_row() {
    let settings = Settings { width: 3, height: 3, levels: 10, guides: 2, weights: Weights::Table, radius: 0 };
    let file = write(&settings, &[1, 2, 3, 4, 5, 6, 7, 8, 9], &[0; 9], &[]).unwrap();
    let (files, lengths) = end_to_end(&[&file]);
    let halted = cameras(&files, &lengths, &[5]).unwrap();
    let camera = halted.camera(0);
    assert_eq!((camera.settings, camera.answered()), (settings, [1, 2, 3, 6, 5].as_slice()));
    assert_eq!(camera.plane(), [Some(1), Some(2), Some(3), None, Some(5), Some(6), None, None, None]);
    let finished = cameras(&files, &lengths, &[5, 5]).unwrap();
    assert_eq!(finished.camera(0).answers, [1, 2, 3, 6, 5, 4, 7, 8, 9]);
    assert!(finished.camera(0).plane().into_iter().eq(filter(&file, Way::Joint).unwrap().levels.into_iter().map(Some)));
}

/// A window without a reading is answered like any other, and a hollow one as everywhere.
#[test]
fn dead_pixels_and_hollow_windows() {
    let dead = tabled(&[NO_READING, NO_READING, NO_READING, 5], &[0; 4], &[1; 4]);
    let (files, lengths) = end_to_end(&[dead, lamp()]);
    let halted = cameras(&files, &lengths, &[5]).unwrap();
    assert_eq!(answered(&halted), [[NO_READING, NO_READING, 5].as_slice(), &[2, 4]]);
    assert_eq!(halted.camera(0).plane(), [Some(NO_READING), Some(NO_READING), Some(5), None]);
}

#[test]
fn no_file_and_eight() {
    let none = cameras(&[], &[], &[4_096]).unwrap();
    assert_eq!((none.grants, none.len(), none.is_empty(), none.iter().count()), (0, 0, true, 0));
    let (files, lengths) = end_to_end(&vec![frame_d(); 8]);
    let halted = cameras(&files, &lengths, &[9]).unwrap();
    assert_eq!(halted.iter().map(|camera| camera.answered().len()).collect::<Vec<_>>(), [2, 1, 1, 1, 1, 1, 1, 1]);
}

#[test]
fn number_15_says_what_is_wrong() {
    let (files, lengths) = hall();
    let refused = |files: &[u8], lengths: &[usize], limits: &[u32], fault: BatchFault, words: &str| {
        let refusal = cameras(files, lengths, limits).unwrap_err();
        assert_eq!((refusal, refusal.number()), (Refusal::Batch { fault }, 15));
        assert_eq!(refusal.to_string(), format!("refused 15: {words}"));
    };
    let nine = [lengths.as_slice(), &[0; 6]].concat();
    refused(&files, &nine, &[9_999], BatchFault::Files { count: 9 }, "there are 9 files, and may be at most 8");
    let fault = BatchFault::Lengths { sum: 0, bytes: 132 };
    refused(&files, &[], &[9_999], fault, "the files' lengths add up to 0 bytes, and the buffer has 132");
    // The sum is the true one.
    let sum = u128::from(u64::MAX) + 133;
    let words = format!("the files' lengths add up to {sum} bytes, and the buffer has 132");
    refused(&files, &[usize::MAX, 133], &[], BatchFault::Lengths { sum, bytes: 132 }, &words);
    let fault = BatchFault::Limit { period: 2, limit: 4_097 };
    let words = "the limit of period 2 is 4097, and must be at most 4096";
    refused(&files, &lengths, &[0, 4_096, 4_097, 9_999], fault, words);
}

#[test]
fn the_first_refused_file_decides() {
    let (files, lengths) = hall();
    let mut wrong = files.clone();
    // The third file's second value, and then the second file's distance of its guide plane.
    let (second, third) = (lengths[0], lengths[0] + lengths[1]);
    wrong[third + 3] = 8;
    assert_eq!(cameras(&wrong, &lengths, &[1]), Err(Refusal::Contents { offset: 2 }));
    wrong[second + lengths[1] - 9] = 21;
    let distance = Refusal::Distance { part: Part::Guide, distance: 21, least: 10, most: 20 };
    assert_eq!(cameras(&wrong, &lengths, &[1]), Err(distance));
    assert_eq!(cameras(&files, &[lengths[0], 0, files.len() - lengths[0]], &[1]), Err(Refusal::Trailer));
    assert_eq!(cameras(&wrong, &lengths, &[4_097]).unwrap_err().number(), 15);
}

#[test]
fn lent_buffers() {
    let (files, lengths) = hall();
    let mut stores = Stores { counts: vec![7; 177], words: vec![7; 25], ..Stores::default() };
    let mut answers = [7; 11];
    for (counts, words, room) in [(175, 24, 10), (176, 23, 10), (176, 24, 9)] {
        let mut short = Stores { counts: vec![7; counts], words: vec![7; words], ..Stores::default() };
        let before = short.clone();
        assert_eq!(cameras_into(&files, &lengths, &[9], &mut short, &mut answers[..room]), Err(Refusal::Room));
        assert_eq!((short, answers), (before, [7; 11]));
    }
    // Only A and B are served: D's parts and what lies beyond stay as lent.
    assert_eq!(cameras_into(&files, &lengths, &[2], &mut stores, &mut answers), Ok(2));
    assert_eq!(answers, [1, 7, 7, 2, 7, 7, 7, 7, 7, 7, 7]);
    assert_eq!((&stores.counts[160..], &stores.words[16..]), ([7; 17].as_slice(), [7; 9].as_slice()));
    assert_eq!(stores.counts[..160].iter().sum::<u16>(), 2 + 3);
    let mut fitting = Stores::default();
    let settings = hall_with(&[]).iter().map(|camera| camera.settings).collect::<Vec<_>>();
    fitting.fit_cameras(&settings).unwrap();
    assert_eq!((fitting.counts.len(), fitting.words.len()), (176, 24));
    let endless = Settings { levels: 65_535, ..settings[0] };
    assert_eq!(fitting.fit_cameras(&[settings[0], endless]), Err(Refusal::Counts));
}
