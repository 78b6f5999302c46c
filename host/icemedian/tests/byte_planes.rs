//! Byte planes: where split and join put every byte, and what each of their checks refuses.

mod rows;

use icemedian::{check, join, join_into, split, split_into, Part, Refusal, Weights, NO_READING};
use rows::{frame_a, row};

/// The value plane's six bytes at 0, the guide plane at 6, the table at 12, the trailer at 20.
fn moved() -> Vec<u8> {
    row(1024, 2, Weights::Table, 1, &[0x0102, 0x0304, 0x0203], &[0, 1, 0], &[1, 2, 3, 4])
}

/// The file with other distances of value plane, guide plane and table.
fn with_distances(file: &[u8], distances: [u32; 3]) -> Vec<u8> {
    let mut file = file.to_vec();
    let start = file.len() - 16;
    file[start..start + 12].copy_from_slice(&distances.map(u32::to_be_bytes).concat());
    file
}

#[test]
fn high_bytes_first_low_bytes_after() {
    let file = moved();
    let split_file = split(&file).unwrap();
    assert_eq!(split_file[..6], [1, 3, 2, 2, 4, 3]);
    assert_eq!(split_file[6..], file[6..]);
    assert_eq!(join(&split_file), Ok(file));
}

/// Parts in another order, with bytes before, between and behind them that are no part's.
#[test]
fn every_other_byte_stays_in_its_place() {
    let (body, trailer) = ([90, 91, 0, 1, 0, 0, 92, 1, 2, 3, 4, 93, 94, 5, 6, 7, 8, 9, 10, 11, 12, 95], [0; 28]);
    let mut file = [body.as_slice(), &trailer].concat();
    file[22..].copy_from_slice(&row(1024, 2, Weights::Table, 1, &[0; 2], &[0; 2], &[0; 4])[16..]);
    let file = with_distances(&file, [15, 20, 9]);
    let mut expected = file.clone();
    expected[7..11].copy_from_slice(&[1, 3, 2, 4]);
    assert_eq!(split(&file).as_ref(), Ok(&expected));
    assert_eq!(join(&expected), Ok(file));
}

#[test]
fn a_dead_pixel_is_moved_like_any_other() {
    let file = row(1024, 4, Weights::Guided { smoothing: 1 }, 1, &[NO_READING, 0x0304, NO_READING], &[3; 3], &[]);
    let split_file = split(&file).unwrap();
    assert_eq!(split_file[..6], [255, 3, 255, 255, 4, 255]);
    assert_eq!(join(&split_file), Ok(file));
}

/// A loop may move many bytes at a time: planes that end about such a run, each byte looked for in its place.
#[test]
fn every_count_of_pixels_up_to_300() {
    for width in 1..=300 {
        let values: Vec<u16> = (0..width).map(|pixel| (pixel * 215 + 5) % 1024).collect();
        let file = row(1024, 2, Weights::Table, 0, &values, &vec![1; values.len()], &[]);
        let split_file = split(&file).unwrap();
        for (pixel, value) in values.iter().enumerate() {
            let bytes = [split_file[pixel], split_file[values.len() + pixel]];
            assert_eq!(bytes, value.to_be_bytes(), "pixel {pixel} of {width}");
        }
        assert_eq!(split_file[2 * values.len()..], file[2 * values.len()..], "{width}");
        assert_eq!(join(&split_file), Ok(file), "{width}");
    }
}

/// Split planes need hold no levels; what is not split is joined as if it were.
#[test]
fn join_takes_any_bytes() {
    for width in 1..=300 {
        let mut file = row(2, 2, Weights::Table, 0, &vec![0; width], &vec![0; width], &[]);
        for (place, byte) in file[..4 * width].iter_mut().enumerate() {
            *byte = (place * 151 + place / 256 * 7 + 250) as u8;
        }
        assert_eq!(check(&file), Err(Refusal::Contents { offset: 0 }));
        let joined = join(&file).unwrap();
        for pixel in 0..width {
            let bytes = [file[pixel], file[width + pixel]];
            assert_eq!(joined[2 * pixel..2 * pixel + 2], bytes, "pixel {pixel} of {width}");
        }
        assert_eq!(joined[2 * width..], file[2 * width..], "{width}");
    }
    assert_eq!(join(&moved()).unwrap()[..6], [1, 4, 2, 2, 3, 3]);
}

#[test]
fn number_14_names_the_part_that_overlaps() {
    // Zeros may be any part.
    let flat = row(1024, 2, Weights::Table, 1, &[0; 3], &[0; 3], &[0; 4]);
    let given = |distances: [u32; 3]| {
        let file = with_distances(&flat, distances);
        let refusal = split(&file).err();
        assert_eq!(join(&file).err(), refusal, "{distances:?}");
        refusal
    };
    let over = |part| Some(Refusal::Overlap { part });
    assert_eq!(given([20, 14, 8]), None);
    // One byte in common at the front of the value plane and at its end, all of them, and some.
    for distances in [[9, 14, 0], [20, 15, 8], [20, 20, 8], [13, 14, 0]] {
        assert_eq!(given(distances), over(Part::Guide), "{distances:?}");
    }
    for distances in [[13, 6, 20], [20, 14, 15], [20, 14, 20], [6, 12, 8]] {
        assert_eq!(given(distances), over(Part::Table), "{distances:?}");
    }
    // Where both overlap, the guide plane is named.
    assert_eq!(given([20, 15, 15]), over(Part::Guide));
    assert_eq!(given([13, 14, 8]), over(Part::Guide));
    // Parts that touch share nothing; distance 0 is no table, wherever the value plane is.
    for distances in [[14, 20, 8], [20, 14, 14], [6, 12, 0], [12, 6, 20]] {
        assert_eq!(given(distances), None, "{distances:?}");
    }
    let table = Refusal::Overlap { part: Part::Table };
    assert_eq!(
        (table.number(), table.to_string().as_str()),
        (14, "refused 14: the table has a byte in common with the value plane")
    );
}

#[test]
fn split_alone_looks_at_values_and_guides() {
    let spoilt = |place: usize| {
        let mut file = moved();
        file[place] = 4;
        (split(&file).err(), join(&file).err())
    };
    assert_eq!(spoilt(4), (Some(Refusal::Contents { offset: 4 }), None));
    assert_eq!(spoilt(6), (Some(Refusal::Contents { offset: 6 }), None));
    assert_eq!(spoilt(12), (None, None));
}

#[test]
fn the_first_check_decides() {
    let (mut overlapping, mut spoilt) = (with_distances(&moved(), [20, 15, 8]), moved());
    (overlapping[0], spoilt[0]) = (4, 4);
    let part = Refusal::Overlap { part: Part::Guide };
    let contents = Refusal::Contents { offset: 0 };
    assert_eq!(split(&overlapping), Err(part));
    assert_eq!(join(&overlapping), Err(part));
    for length in [0, 47] {
        let mut output = vec![9; length];
        assert_eq!(split_into(&overlapping, &mut output), Err(part));
        assert_eq!(join_into(&overlapping, &mut output), Err(part));
        assert_eq!(split_into(&spoilt, &mut output), Err(contents));
        assert_eq!(join_into(&spoilt, &mut output), Err(Refusal::Room));
        assert!(output.iter().all(|&byte| byte == 9));
    }
    let outside = with_distances(&moved(), [20, 15, 21]);
    assert_eq!((split(&outside).unwrap_err().number(), join(&outside).unwrap_err().number()), (6, 6));
    assert_eq!((split(&[]), join(&[])), (Err(Refusal::Trailer), Err(Refusal::Trailer)));
}

#[test]
fn the_output_is_at_least_the_files_length() {
    for file in [moved(), frame_a()] {
        let (length, split_file) = (file.len(), split(&file).unwrap());
        for more in [0, 1, 100] {
            let mut output = vec![9; length + more];
            assert_eq!(split_into(&file, &mut output), Ok(()));
            assert_eq!(output, [split_file.as_slice(), &vec![9; more]].concat());
            assert_eq!(join_into(&split_file, &mut output), Ok(()));
            assert_eq!(output, [file.as_slice(), &vec![9; more]].concat());
        }
        for short in [0, 1, length - 28, length - 1] {
            let mut output = vec![9; short];
            assert_eq!(split_into(&file, &mut output), Err(Refusal::Room));
            assert_eq!(join_into(&file, &mut output), Err(Refusal::Room));
            assert!(output.iter().all(|&byte| byte == 9));
        }
    }
}
